//! Texts that belong together: a sheet is made by filling a figure and is then written anew.

use super::lines::{line, ported, text, Lines};
use super::random::Source;
use super::rng::Rng;
use crate::fill::filled;
use crate::graph::{normal, Graph};
use crate::read::{read_figure, read_list, read_sheet, Figure, SHEET};
use crate::row::LAST_JOINT;

/// A pattern, the list it was filled from, the sheet that came out, and a replacement with the pattern's marks and
/// contexts.
pub struct Matching {
    pub sheet: Lines,
    pub pattern: Lines,
    pub replacement: Lines,
    pub list: Lines,
}

/// The normal form of a sheet; empty where it is refused.
pub fn normal_sheet(lines: &Lines) -> Graph {
    normal(&read_sheet(&text(lines)).unwrap_or_default())
}

/// The filled figure; `None` where a text is refused or the result is too large.
pub fn filled_figure(figure: &Lines, list: &Lines) -> Option<Graph> {
    let figure = read_figure(&text(figure), Figure::Other).ok()?;
    let list = read_list(&text(list)).ok()?;
    filled(&figure, |number| list.iter().find(|f| f.number == number).map(|f| &f.graph))
}

/// Rows of a normal graph, written anew: other joint numbers, classes spread over several joints, rows in any order.
pub fn scramble(rng: &mut Rng, graph: &Graph) -> Lines {
    let spare = SHEET.links.saturating_sub(graph.links);
    let extra = if rng.chance(1, 2) { 0 } else { rng.between(0, spare.min(8)) };
    let numbers = rng.distinct(graph.links + extra, LAST_JOINT);
    let mut classes: Vec<Vec<u16>> = numbers[..graph.links].iter().map(|&n| vec![n]).collect();
    let mut lines = Lines::new();
    for &number in &numbers[graph.links..] {
        let other = match rng.below(graph.links + 1) {
            class if class < graph.links => {
                let other = rng.pick(&classes[class]);
                classes[class].push(number);
                other
            }
            _ => number,
        };
        lines.push(if rng.chance(1, 2) { line(b'F', &[number, other]) } else { line(b'F', &[other, number]) });
    }
    for atom in &graph.atoms {
        let joints: Vec<u16> = atom.links().iter().map(|&l| rng.pick(&classes[l as usize])).collect();
        lines.push(ported(b'S', atom.name, &joints));
    }
    for &(mark, link) in &graph.marks {
        for _ in 0..if rng.chance(1, 12) { 2 } else { 1 } {
            lines.push(line(b'E', &[rng.pick(&classes[link as usize]), mark]));
        }
    }
    if rng.chance(4, 5) {
        rng.shuffle(&mut lines);
    }
    lines
}

/// A random pattern, fillings and the sheet that they make.
pub fn matching(source: &mut Source) -> Matching {
    for _ in 0..20 {
        let ports = source.ports();
        let pattern = source.figure(&ports, false);
        let list = source.list(&ports);
        if let Some(graph) = filled_figure(&pattern, &list) {
            let sheet = scramble(source.rng, &graph);
            let replacement = source.figure(&ports, true);
            return Matching { sheet, pattern, replacement, list };
        }
    }
    Matching { sheet: Lines::new(), pattern: Lines::new(), replacement: Lines::new(), list: Lines::new() }
}

/// A pattern of one context, found in a sheet that it takes whole, and a replacement that holds it twice:
/// results of about the most atoms or links that a sheet may have.
pub fn doubled(rng: &mut Rng) -> Matching {
    let pattern = vec![ported(b'B', 1, &[])];
    let mut replacement = vec![ported(b'B', 1, &[]), ported(b'B', 1, &[])];
    let (inner, extra) = if rng.chance(1, 2) {
        (few_links(rng, SHEET.atoms / 2), rng.below(3))
    } else {
        (many_links(rng, SHEET.links / 2), rng.below(3))
    };
    for i in 0..extra {
        replacement.push(ported(b'S', 50, &[i as u16 + 1]));
    }
    rng.shuffle(&mut replacement);
    let mut list = vec![line(b'H', &[1, 0])];
    list.extend(inner.clone());
    Matching { sheet: inner, pattern, replacement, list }
}

/// About `count` atoms without links.
fn few_links(rng: &mut Rng, count: usize) -> Lines {
    (0..count - 1 + rng.below(3)).map(|_| ported(b'S', rng.between(50, 51) as u16, &[])).collect()
}

/// Atoms with about `count` links of their own.
fn many_links(rng: &mut Rng, count: usize) -> Lines {
    let count = count - 1 + rng.below(3);
    let joints: Vec<u16> = (1..=count as u16).collect();
    joints.chunks(rng.between(2, 6)).map(|joints| ported(b'S', 50, joints)).collect()
}
