//! Sheets with many symmetries, and figures that are nearly in them: the hard cases of the search.

use super::lines::{line, ported, Lines};
use super::rng::Rng;
use crate::read::{FIGURE, SHEET};

const NAME: u16 = 7;

/// Rings of atoms with two links each, of these lengths.
pub fn rings(lengths: &[usize]) -> Lines {
    let mut lines = Lines::new();
    let mut first = 1;
    for &length in lengths {
        for i in 0..length {
            let (here, there) = (first + i, first + (i + 1) % length);
            lines.push(ported(b'S', NAME, &[here as u16, there as u16]));
        }
        first += length;
    }
    lines
}

/// Lengths of rings that fit in a sheet: a few sizes, many times.
pub fn lengths(rng: &mut Rng) -> Vec<usize> {
    let most = rng.between(4, SHEET.atoms);
    let sizes = [rng.between(2, 8), rng.between(2, 8)];
    let mut lengths = Vec::new();
    let mut left = most;
    while left >= 2 {
        let length = rng.pick(&sizes).min(left);
        lengths.push(length);
        left -= length;
    }
    lengths
}

/// Two sets of rings over as many atoms: equal ones, or one ring cut in two or two joined.
pub fn two_rings(rng: &mut Rng) -> (Lines, Lines) {
    let first = lengths(rng);
    let mut second = first.clone();
    if rng.chance(2, 3) {
        let joined = second.pop().unwrap_or(0) + second.pop().unwrap_or(0);
        let cut = rng.below(joined + 1);
        second.extend([cut, joined - cut].into_iter().filter(|&length| length > 0));
    }
    rng.shuffle(&mut second);
    let (mut a, mut b) = (rings(&first), rings(&second));
    rng.shuffle(&mut a);
    rng.shuffle(&mut b);
    (a, b)
}

/// A chain of `length` atoms from joint `first` on.
fn chain(first: usize, length: usize) -> Lines {
    (first..first + length).map(|i| ported(b'S', NAME, &[i as u16, i as u16 + 1])).collect()
}

/// A sheet of rings or chains, now and then with a mark, and a chain as pattern: its ends on one context or two,
/// its rows in any order.
pub fn chain_in(rng: &mut Rng) -> (Lines, Lines) {
    let mut sheet = if rng.chance(1, 2) { rings(&lengths(rng)) } else { chain(1, rng.between(1, SHEET.atoms - 2)) };
    let length = rng.between(1, FIGURE.atoms);
    let mut pattern = chain(1, length);
    let last = length as u16 + 1;
    let open = last + 1;
    match rng.below(4) {
        0 => pattern.push(ported(b'B', 1, &[last, 1])),
        1 => pattern.push(ported(b'B', 2, &[1, last, open, open + 1])),
        2 => pattern.extend([ported(b'B', 1, &[last]), ported(b'B', 3, &[1])]),
        _ => pattern.extend([ported(b'B', 4, &[last, open]), ported(b'B', 1, &[1, open])]),
    }
    if rng.chance(1, 4) {
        sheet.push(line(b'E', &[1, 5]));
        pattern.push(line(b'E', &[1, 5]));
    }
    rng.shuffle(&mut sheet);
    rng.shuffle(&mut pattern);
    (sheet, pattern)
}

/// A hub with leaves, and a pattern with as many leaves or one more or less, before an atom that may be missing.
pub fn hub(rng: &mut Rng) -> (Lines, Lines) {
    let leaves = rng.between(1, FIGURE.atoms - 2);
    let more = rng.below(3);
    let leaf = |count: usize| vec![ported(b'S', NAME, &[1]); count];
    let mut sheet = leaf(leaves + 1);
    sheet.extend(vec![ported(b'S', NAME, &[2]); rng.below(20)]);
    let mut pattern = leaf(leaves + more - 1);
    pattern.push(ported(b'B', 1, if rng.chance(1, 2) { &[1] } else { &[2, 3] }));
    if rng.chance(1, 2) {
        sheet.push(ported(b'S', 8, &[2]));
        pattern.push(ported(b'S', 8, &[4]));
    }
    rng.shuffle(&mut sheet);
    (sheet, pattern)
}

/// A grid between two poles and a pattern of the poles with one context each: links that both contexts share may
/// cut the grid.
pub fn grid(rng: &mut Rng) -> (Lines, Lines) {
    let (wide, long) = (rng.between(1, 3), rng.between(1, 6));
    let at = |x: usize, y: usize| (x * (long + 1) + y + 1) as u16;
    let mut sheet = Lines::new();
    for x in 0..wide {
        sheet.extend((0..long).map(|y| ported(b'S', NAME, &[at(x, y), at(x, y + 1)])));
        sheet.extend((0..=long).filter(|_| x > 0).map(|y| ported(b'S', NAME, &[at(x - 1, y), at(x, y)])));
    }
    let pole = |y: usize| (0..wide).map(|x| at(x, y)).collect::<Vec<u16>>();
    sheet.extend([ported(b'S', 8, &pole(0)), ported(b'S', 9, &pole(long))]);
    let near: Vec<u16> = (1..=wide as u16).collect();
    let far: Vec<u16> = (11..11 + wide as u16).collect();
    let shared: Vec<u16> = (21..21 + rng.below(4) as u16).collect();
    let pattern = vec![
        ported(b'S', 8, &near),
        ported(b'S', 9, &far),
        ported(b'B', 1, &[near, shared.clone()].concat()),
        ported(b'B', 2, &[far, shared].concat()),
    ];
    rng.shuffle(&mut sheet);
    (sheet, pattern)
}
