//! Sheets of many shapes, of one name or two, some with marks: what a search for open links has to find its way in.

use super::lines::{line, ported, Lines};
use super::regular::{lengths, rings};
use super::rng::Rng;
use crate::read::SHEET;

/// The names of the atoms.
const NAMES: [u16; 2] = [7, 8];
/// Most marks of such a sheet.
const MARKS: usize = 5;

/// A sheet of any shape.
pub fn sheet(rng: &mut Rng) -> Lines {
    let lines = match rng.below(9) {
        0 => between(chain(rng.between(2, SHEET.atoms))),
        1 => rings(&[rng.between(2, SHEET.atoms)]),
        2 => rings(&lengths(rng)),
        3 => between(grid(rng.between(2, 5), rng.between(2, 7))),
        4 => between(torus(rng.between(3, 5), rng.between(3, 6))),
        5 => between(bundles(rng)),
        6 => between(tree(rng)),
        7 => cells(rng),
        _ => net(rng),
    };
    marked(rng, lines)
}

/// Renames some atoms, now and then, and puts marks on some joints.
fn marked(rng: &mut Rng, mut lines: Lines) -> Lines {
    if rng.chance(1, 3) {
        for line in &mut lines {
            line.fields[0] = rng.pick(&NAMES);
        }
    }
    if !rng.chance(1, 3) {
        let joints: Vec<u16> = lines.iter().flat_map(|line| line.fields[2..].to_vec()).collect();
        let marks = rng.between(1, MARKS) as u16;
        lines.extend((1..=marks).map(|mark| line(b'E', &[rng.pick(&joints), mark])));
    }
    lines
}

type Pairs = Vec<(u16, u16)>;

/// An atom between the joints of each pair.
fn between(pairs: Pairs) -> Lines {
    pairs.iter().take(SHEET.atoms).map(|&(a, b)| ported(b'S', NAMES[0], &[a, b])).collect()
}

fn chain(length: usize) -> Pairs {
    (1..=length as u16).map(|i| (i, i + 1)).collect()
}

/// Joints in rows, an atom between neighbours.
fn grid(wide: usize, long: usize) -> Pairs {
    let at = |x: usize, y: usize| (x * long + y + 1) as u16;
    let mut pairs = Pairs::new();
    for x in 0..wide {
        pairs.extend((1..long).map(|y| (at(x, y - 1), at(x, y))));
        pairs.extend((0..long).filter(|_| x > 0).map(|y| (at(x - 1, y), at(x, y))));
    }
    pairs
}

/// The same with the last beside the first.
fn torus(wide: usize, long: usize) -> Pairs {
    let at = |x: usize, y: usize| (x % wide * long + y % long + 1) as u16;
    let mut pairs = Pairs::new();
    for x in 0..wide {
        pairs.extend((0..long).flat_map(|y| [(at(x, y), at(x, y + 1)), (at(x, y), at(x + 1, y))]));
    }
    pairs
}

/// A chain or a ring with several atoms side by side, and loops at its joints.
fn bundles(rng: &mut Rng) -> Pairs {
    let joints = rng.between(2, 12) as u16;
    let (beside, loops) = (rng.between(1, 4), rng.below(4));
    let mut pairs = Pairs::new();
    for i in 1..=joints {
        let next = if i < joints { i + 1 } else { 1 };
        if i < joints || rng.chance(1, 2) {
            pairs.extend(vec![(i, next); beside]);
        }
        pairs.extend(vec![(i, i); loops]);
    }
    pairs
}

fn tree(rng: &mut Rng) -> Pairs {
    let atoms = rng.between(3, SHEET.atoms) as u16;
    let near = rng.between(1, 8);
    let above = |i: u16, rng: &mut Rng| i - rng.below(near.min(i as usize)) as u16;
    (1..=atoms).map(|i| (above(i, rng), i + 1)).collect()
}

/// Atoms of four joints side by side, each with those around it.
fn cells(rng: &mut Rng) -> Lines {
    let (wide, long) = (rng.between(2, 6), rng.between(2, 8));
    let right = |x: usize, y: usize| (x % wide * long + y % long + 1) as u16;
    let below = |x: usize, y: usize| (wide * long) as u16 + right(x, y);
    let around = |x: usize, y: usize| [right(x + wide - 1, y), right(x, y), below(x, y + long - 1), below(x, y)];
    (0..wide * long).map(|i| ported(b'S', NAMES[0], &around(i / long, i % long))).collect()
}

/// Atoms of up to three joints anywhere.
fn net(rng: &mut Rng) -> Lines {
    let (atoms, joints) = (rng.between(4, SHEET.atoms), rng.between(4, 40));
    let arity = rng.between(1, 3);
    let mut lines = Lines::new();
    for _ in 0..atoms {
        let links: Vec<u16> = (0..arity).map(|_| rng.between(1, joints) as u16).collect();
        lines.push(ported(b'S', NAMES[0], &links));
    }
    lines
}
