//! Texts that are as large as allowed, or one over.

use super::lines::{line, ported, Lines};
use super::rng::Rng;
use crate::read::{Limits, Ports, FIGURE, LIST, ROWS, SHEET};
use crate::row::{LAST_JOINT, LAST_MARK};

/// `count` atoms on one link or none.
fn atoms(rng: &mut Rng, count: usize) -> Lines {
    let joint = rng.between(1, LAST_JOINT as usize) as u16;
    let arity = rng.below(2);
    (0..count).map(|_| ported(b'S', rng.between(1, 2) as u16, &[joint; 1][..arity])).collect()
}

/// Rows with `count` different joints: atoms, as long as `most` of them suffice, or fusions.
fn joints(rng: &mut Rng, count: usize, most: usize) -> Lines {
    let numbers = rng.distinct(count, LAST_JOINT);
    let width = rng.between(2, 6);
    if rng.chance(1, 2) && count <= width * most {
        numbers.chunks(width).map(|joints| ported(b'S', 1, joints)).collect()
    } else {
        numbers.chunks(2).map(|pair| line(b'F', &[pair[0], pair[pair.len() - 1]])).collect()
    }
}

/// Rows with `count` different marks on a few joints.
fn marks(rng: &mut Rng, count: usize) -> Lines {
    let joints = rng.between(1, 8);
    let numbers = rng.distinct(count, LAST_MARK);
    numbers.iter().map(|&mark| line(b'E', &[rng.between(1, joints) as u16, mark])).collect()
}

/// Fills a text up to `count` rows.
fn rows(rng: &mut Rng, mut lines: Lines, count: usize) -> Lines {
    let joint = rng.between(1, 3) as u16;
    lines.truncate(count);
    lines.extend((lines.len()..count).map(|_| line(b'F', &[joint, joint])));
    lines
}

/// At the limit or one over.
fn about(rng: &mut Rng, limit: usize) -> usize {
    limit + rng.below(2)
}

fn within(rng: &mut Rng, limits: &Limits) -> Lines {
    match rng.below(4) {
        0 => {
            let count = about(rng, limits.atoms);
            atoms(rng, count)
        }
        1 => {
            let count = about(rng, limits.links);
            joints(rng, count, limits.atoms)
        }
        2 => {
            let count = about(rng, limits.marks);
            marks(rng, count)
        }
        _ => {
            let (start, count) = (atoms(rng, 2), about(rng, ROWS));
            rows(rng, start, count)
        }
    }
}

/// A sheet at one of its limits.
pub fn sheet(rng: &mut Rng) -> Lines {
    within(rng, &SHEET)
}

/// A figure at one of its limits; the contexts are those of `ports`, or number 1 without ports.
pub fn figure(rng: &mut Rng, ports: &Ports) -> Lines {
    if rng.chance(2, 3) {
        let count = rng.below(2);
        let mut lines = contexts(rng, ports, count);
        lines.extend(within(rng, &FIGURE));
        lines.truncate(ROWS + 1);
        return lines;
    }
    let count = about(rng, FIGURE.contexts);
    contexts(rng, ports, count)
}

/// `count` B rows of one of the contexts.
fn contexts(rng: &mut Rng, ports: &Ports, count: usize) -> Lines {
    let known: Vec<usize> = (1..ports.len()).filter(|&c| ports[c].is_some()).collect();
    let number = if known.is_empty() { 1 } else { rng.pick(&known) };
    let arity = ports[number].unwrap_or(0) as usize;
    (0..count).map(|_| ported(b'B', number as u16, &[1, 2, 1, 3, 2, 1][..arity])).collect()
}

/// A list at one of its limits, with a head for each of the contexts; marks are right where they are not the point.
pub fn list(rng: &mut Rng, ports: &Ports) -> Lines {
    let known: Vec<usize> = (1..ports.len()).filter(|&c| ports[c].is_some()).collect();
    if known.is_empty() {
        return rows(rng, vec![line(b'H', &[1, 0])], ROWS + 1);
    }
    let (chosen, kind) = (rng.pick(&known), rng.below(4));
    let mut left = about(rng, LIST.atoms);
    let mut lines = Lines::new();
    for &number in &known {
        let arity = ports[number].unwrap_or(0) as u16;
        lines.push(line(b'H', &[number as u16, arity]));
        lines.extend((1..=arity).map(|mark| line(b'E', &[1, mark])));
        let here = number == chosen;
        match kind {
            0 => {
                let count = if Some(&number) == known.last() { left } else { rng.below(left / 2 + 1) };
                left -= count;
                lines.extend(atoms(rng, count));
            }
            1 if here => {
                let count = about(rng, LIST.links);
                lines.truncate(lines.len() - arity as usize);
                let filling = joints(rng, count, LIST.atoms);
                let joint = *filling[0].fields.last().unwrap_or(&1);
                lines.extend((1..=arity).map(|mark| line(b'E', &[joint, mark])));
                lines.extend(filling);
            }
            2 if here => {
                let count = about(rng, LIST.marks);
                lines.extend((1..=count as u16).map(|mark| line(b'E', &[1, mark])));
            }
            _ => {}
        }
    }
    if kind == 3 {
        let count = about(rng, ROWS);
        lines = rows(rng, lines, count);
    }
    lines
}
