//! Patterns with several contexts and many open links, each beside a sheet of any shape.

use std::collections::BTreeMap;

use super::damage::nudge;
use super::lines::{line, ported, Line, Lines};
use super::rng::Rng;
use super::shapes::sheet;
use crate::read::FIGURE;
use crate::row::{LAST_CONTEXT, PORTS};

/// A pattern that is being made.
struct Pattern {
    /// The joints of each blank.
    blanks: Vec<Vec<u16>>,
    /// S and E rows.
    rows: Lines,
    joints: u16,
}

impl Pattern {
    fn new(blanks: usize) -> Self {
        Pattern { blanks: vec![Vec::new(); blanks], rows: Lines::new(), joints: 0 }
    }

    /// A new joint, or the last where there may be no more.
    fn joint(&mut self) -> u16 {
        self.joints = (self.joints + 1).min(FIGURE.links as u16);
        self.joints
    }

    /// Puts a joint on a blank if that has a port left.
    fn put(&mut self, joint: u16, blank: usize) {
        if self.blanks[blank].len() < PORTS {
            self.blanks[blank].push(joint);
        }
    }

    /// Puts a joint on so many blanks, or fewer.
    fn put_on(&mut self, rng: &mut Rng, joint: u16, count: usize) {
        let mut blanks: Vec<usize> = (0..self.blanks.len()).collect();
        rng.shuffle(&mut blanks);
        for &blank in blanks.iter().take(count) {
            self.put(joint, blank);
        }
    }

    /// New joints on one of these numbers of blanks each, now and then one of them twice.
    fn add_open(&mut self, rng: &mut Rng, count: usize, widths: &[usize]) {
        for _ in 0..count {
            let joint = self.joint();
            let width = rng.pick(widths);
            self.put_on(rng, joint, width);
            if rng.chance(1, 10) {
                self.put_on(rng, joint, 1);
            }
        }
    }

    /// The sheet's marks that are not there yet, each on a new joint on a blank or two.
    fn add_marks(&mut self, rng: &mut Rng, sheet: &Lines) {
        for (mark, _) in marks(sheet) {
            if !marks(&self.rows).any(|(there, _)| there == mark) {
                let joint = self.joint();
                let width = rng.pick(&[1, 1, 1, 2]);
                self.put_on(rng, joint, width);
                self.rows.push(line(b'E', &[joint, mark]));
            }
        }
    }

    /// The rows, in any order.
    fn lines(self, rng: &mut Rng) -> Lines {
        let blanks = (1..).zip(&self.blanks).map(|(number, joints)| ported(b'B', number, joints));
        let mut lines: Lines = self.rows.into_iter().chain(blanks).collect();
        rng.shuffle(&mut lines);
        lines
    }
}

/// The marks of a text and their joints.
fn marks(lines: &Lines) -> impl Iterator<Item = (u16, u16)> + '_ {
    lines.iter().filter(|line| line.letter == b'E').map(|line| (line.fields[1], line.fields[0]))
}

fn symbols(lines: &Lines) -> Vec<&Line> {
    lines.iter().filter(|line| line.letter == b'S').collect()
}

/// Blanks alone, most of their joints on one blank.
pub fn open(rng: &mut Rng) -> (Lines, Lines) {
    blanks_alone(rng, 2, &[1, 1, 1, 2, 3])
}

/// Three or four blanks that share most of their joints.
pub fn shared(rng: &mut Rng) -> (Lines, Lines) {
    blanks_alone(rng, 3, &[1, 2, 2, 2, 3])
}

fn blanks_alone(rng: &mut Rng, least: usize, widths: &[usize]) -> (Lines, Lines) {
    let sheet = sheet(rng);
    let mut pattern = Pattern::new(rng.between(least, LAST_CONTEXT as usize));
    pattern.add_marks(rng, &sheet);
    let count = rng.between(1, 14);
    pattern.add_open(rng, count, widths);
    (sheet, pattern.lines(rng))
}

/// Symbols that stand apart from each other, fewer in a larger sheet: there are not very many placings of them.
pub fn apart(rng: &mut Rng) -> (Lines, Lines) {
    symbols_apart(rng, 10_000)
}

/// The same with any number of placings.
pub fn scattered(rng: &mut Rng) -> (Lines, Lines) {
    symbols_apart(rng, usize::MAX)
}

/// Two to six symbols of the sheet without a joint in common, all their joints on blanks.
fn symbols_apart(rng: &mut Rng, most: usize) -> (Lines, Lines) {
    let sheet = sheet(rng);
    let chosen = symbols(&sheet);
    let few = |&count: &u32| chosen.len().checked_pow(count).is_some_and(|placings| placings <= most);
    let count = (2..=rng.between(2, 6) as u32).rev().find(few).unwrap_or(2);
    let mut pattern = Pattern::new(rng.between(1, LAST_CONTEXT as usize));
    for _ in 0..count {
        let symbol = chosen[rng.below(chosen.len())];
        let joints: Vec<u16> = symbol.fields[2..].iter().map(|_| pattern.joint()).collect();
        for &joint in &joints {
            let width = rng.pick(&[1, 1, 2]);
            pattern.put_on(rng, joint, width);
        }
        pattern.rows.push(ported(b'S', symbol.fields[0], &joints));
    }
    pattern.add_marks(rng, &sheet);
    let count = rng.below(8);
    pattern.add_open(rng, count, &[1, 2, 3]);
    (sheet, pattern.lines(rng))
}

/// A few pieces of the sheet, on blanks at any of their joints.
pub fn pieces(rng: &mut Rng) -> (Lines, Lines) {
    let sheet = sheet(rng);
    let mut pattern = Pattern::new(rng.between(1, LAST_CONTEXT as usize));
    let all = symbols(&sheet);
    for _ in 0..rng.between(1, 2) {
        let size = rng.between(1, 6);
        let mut joints = BTreeMap::new();
        for at in region(rng, &all, size) {
            add_symbol(&mut pattern, &mut joints, all[at]);
        }
        for &joint in joints.values() {
            let width = rng.pick(&[0, 1, 1, 2]);
            pattern.put_on(rng, joint, width);
        }
    }
    pattern.add_marks(rng, &sheet);
    let count = rng.below(8);
    pattern.add_open(rng, count, &[1, 2, 3]);
    (sheet, pattern.lines(rng))
}

/// Copies a symbol of the sheet; `joints` has the pattern's joints for those of the sheet.
fn add_symbol(pattern: &mut Pattern, joints: &mut BTreeMap<u16, u16>, symbol: &Line) {
    let new: Vec<u16> =
        symbol.fields[2..].iter().map(|&y| *joints.entry(y).or_insert_with(|| pattern.joint())).collect();
    pattern.rows.push(ported(b'S', symbol.fields[0], &new));
}

/// Up to so many symbols that hang together, anywhere.
fn region(rng: &mut Rng, symbols: &[&Line], size: usize) -> Vec<usize> {
    let mut found = vec![rng.below(symbols.len())];
    let touches = |a: usize, b: usize| symbols[a].fields[2..].iter().any(|y| symbols[b].fields[2..].contains(y));
    while found.len() < size {
        let near = |at: &usize| !found.contains(at) && found.iter().any(|&b| touches(*at, b));
        let around: Vec<usize> = (0..symbols.len()).filter(near).collect();
        if around.is_empty() {
            break;
        }
        found.push(rng.pick(&around));
    }
    found
}

/// A sheet cut into symbols of the pattern and the fillings of its blanks, as far as these have ports: mostly there is a
/// good placing. In every second call one text is then changed a little.
pub fn cut(rng: &mut Rng) -> (Lines, Lines) {
    let mut sheet = sheet(rng);
    let blanks = rng.between(2, LAST_CONTEXT as usize);
    let owners = owners(rng, &symbols(&sheet), blanks);
    let mut pattern = Pattern::new(blanks);
    let mut joints = BTreeMap::new();
    for (symbol, _) in symbols(&sheet).iter().zip(&owners).filter(|(_, &owner)| owner == 0) {
        add_symbol(&mut pattern, &mut joints, symbol);
    }
    for (mark, y) in marks(&sheet) {
        let joint = *joints.entry(y).or_insert_with(|| pattern.joint());
        pattern.rows.push(line(b'E', &[joint, mark]));
    }
    put_borders(&mut pattern, &mut joints, &symbols(&sheet), &owners);
    let count = rng.below(8);
    pattern.add_open(rng, count, &[1, 1, 2, 3]);
    let mut lines = pattern.lines(rng);
    match rng.below(4) {
        0 => nudge(rng, &mut sheet),
        1 => nudge(rng, &mut lines),
        _ => {}
    }
    (sheet, lines)
}

/// Whose each symbol of the sheet is: 0 for the pattern, else the blank of that number.
fn owners(rng: &mut Rng, symbols: &[&Line], blanks: usize) -> Vec<usize> {
    let mut owners = vec![1; symbols.len()];
    for blank in 2..=blanks {
        let size = rng.between(1, symbols.len() / 2 + 1);
        for at in region(rng, symbols, size) {
            owners[at] = blank;
        }
    }
    for _ in 0..rng.below(3) {
        let size = rng.between(1, 6);
        for at in region(rng, symbols, size) {
            owners[at] = 0;
        }
    }
    owners
}

/// Puts each joint that the pattern has, and each where blanks meet, on the blanks of the symbols there.
fn put_borders(pattern: &mut Pattern, joints: &mut BTreeMap<u16, u16>, symbols: &[&Line], owners: &[usize]) {
    let mut there: BTreeMap<u16, Vec<usize>> = BTreeMap::new();
    for (symbol, &owner) in symbols.iter().zip(owners).filter(|(_, &owner)| owner > 0) {
        for &y in &symbol.fields[2..] {
            let blanks = there.entry(y).or_default();
            if !blanks.contains(&(owner - 1)) {
                blanks.push(owner - 1);
            }
        }
    }
    for (y, blanks) in there {
        if blanks.len() > 1 || joints.contains_key(&y) {
            let joint = *joints.entry(y).or_insert_with(|| pattern.joint());
            for blank in blanks {
                pattern.put(joint, blank);
            }
        }
    }
}
