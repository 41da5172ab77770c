//! Sheets of parts that look alike, which a comparison tells apart late.

use super::lines::{ported, Lines};
use super::regular::{lengths, rings};
use super::rng::Rng;
use crate::read::SHEET;

const NAME: u16 = 7;

/// Joints with some loops each: atoms that have the joint at all their places.
pub fn loops(rng: &mut Rng) -> Lines {
    let (joints, loops) = (rng.between(2, 12) as u16, rng.between(2, 5));
    let places = rng.pick(&[2, 3, 6]);
    (1..=joints).flat_map(|joint| vec![ported(b'S', NAME, &vec![joint; places]); loops]).collect()
}

/// Bundles of atoms side by side between two joints, each by itself or one after the other in a ring.
pub fn bundles(rng: &mut Rng) -> Lines {
    let (bundles, beside) = (rng.between(2, 12) as u16, rng.between(2, 5));
    let ring = rng.chance(1, 2);
    let ends = |i: u16| if ring { [i, i % bundles + 1] } else { [2 * i - 1, 2 * i] };
    (1..=bundles).flat_map(|i| vec![ported(b'S', NAME, &ends(i)); beside]).collect()
}

/// A long cycle, or several short ones.
pub fn cycles(rng: &mut Rng) -> Lines {
    if rng.chance(1, 2) {
        return rings(&[rng.between(4, SHEET.atoms)]);
    }
    rings(&lengths(rng))
}

/// A piece as often as a sheet has room for it.
pub fn copies(rng: &mut Rng) -> Lines {
    let (atoms, joints) = (rng.between(2, 8), rng.between(2, 8));
    let mut piece: Vec<Vec<u16>> = Vec::new();
    for _ in 0..atoms {
        let arity = rng.between(1, 3);
        piece.push((0..arity).map(|_| rng.between(1, joints) as u16).collect());
    }
    let copies = (SHEET.atoms / atoms).min(SHEET.links / joints);
    let copy = |first: usize, links: &[u16]| links.iter().map(|link| link + first as u16).collect::<Vec<u16>>();
    let lines = |k: usize| piece.iter().map(move |links| ported(b'S', NAME, &copy(k * joints, links)));
    (0..copies).flat_map(lines).collect()
}

/// Exchanges the joints that two atoms have at one place: each joint is at as many places as before.
pub fn cross(rng: &mut Rng, lines: &mut Lines) {
    let (a, b) = (rng.below(lines.len()), rng.below(lines.len()));
    let end = lines[a].fields.len().min(lines[b].fields.len());
    let place = rng.between(2, end - 1);
    let joint = lines[a].fields[place];
    lines[a].fields[place] = lines[b].fields[place];
    lines[b].fields[place] = joint;
}
