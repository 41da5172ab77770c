//! Damaged texts: rows that are wrong as rows, and texts that are wrong as bytes.

use super::lines::{line, Lines};
use super::rng::Rng;
use crate::row::{COLUMNS, FIELDS, WIDTH};

/// Changes one row or its place.
pub fn spoil(rng: &mut Rng, lines: &mut Lines) {
    if lines.is_empty() {
        let letter = rng.pick(b"SBFEH");
        lines.push(line(letter, &[1, 1, 1]));
        return;
    }
    let at = rng.below(lines.len());
    let to = rng.below(lines.len());
    match rng.below(9) {
        0 => lines.swap(at, to),
        1 => lines.insert(to, lines[at].clone()),
        2 => drop(lines.remove(at)),
        3 => lines[at].letter = rng.pick(b"SBFEHAse "),
        4 => change(rng, lines, at),
        5 => drop(lines[at].fields.pop()),
        6 => lines[at].fields.push(rng.between(1, 9999) as u16),
        7 => recount(rng, lines, at),
        _ => lines.insert(to, line(b'H', &[rng.between(1, 4) as u16, rng.below(3) as u16])),
    }
}

/// Puts another number into one field: often one just out of some range.
fn change(rng: &mut Rng, lines: &mut Lines, at: usize) {
    let fields = &mut lines[at].fields;
    if !fields.is_empty() {
        let i = rng.below(fields.len());
        fields[i] = match rng.below(3) {
            0 => rng.pick(&[0, 1, 2, 4, 5, 6, 7, 999, 1000, 9999]),
            1 => rng.between(1, 9) as u16,
            _ => rng.between(1, 9999) as u16,
        };
    }
}

/// Gives a row with joints one joint more or fewer, so that it stays a row.
fn recount(rng: &mut Rng, lines: &mut Lines, at: usize) {
    let candidates: Vec<usize> = (0..lines.len()).filter(|&i| b"SB".contains(&lines[i].letter)).collect();
    let at = if candidates.is_empty() { at } else { rng.pick(&candidates) };
    let fields = &mut lines[at].fields;
    if fields.len() > 2 && (fields.len() == FIELDS || rng.chance(1, 2)) {
        fields.pop();
    } else if fields.len() >= 2 {
        fields.push(rng.between(1, 9) as u16);
    }
    if fields.len() >= 2 {
        fields[1] = fields.len() as u16 - 2;
    }
}

/// Changes a text a little so that it is still likely to pass: another value of the same kind in one field.
pub fn nudge(rng: &mut Rng, lines: &mut Lines) {
    if lines.is_empty() {
        return;
    }
    let (at, from) = (rng.below(lines.len()), rng.below(lines.len()));
    let joints = |letter: u8| match letter {
        b'S' | b'B' => 2..FIELDS,
        b'F' => 0..2,
        b'E' => 0..1,
        _ => 0..0,
    };
    let (mut places, mut values) = (joints(lines[at].letter), joints(lines[from].letter));
    places.end = places.end.min(lines[at].fields.len());
    values.end = values.end.min(lines[from].fields.len());
    if places.is_empty() || values.is_empty() || rng.chance(1, 8) {
        lines[at].fields[0] = lines[from].fields[0];
    } else {
        let value = lines[from].fields[rng.between(values.start, values.end - 1)];
        lines[at].fields[rng.between(places.start, places.end - 1)] = value;
    }
}

/// Damages the bytes of a text.
pub fn damage(rng: &mut Rng, text: &mut Vec<u8>) {
    let length = text.len();
    let at = rng.below(length);
    let row = WIDTH * rng.below(length / WIDTH);
    let field = row + 1 + COLUMNS * rng.below(FIELDS);
    let whole = length >= WIDTH;
    match rng.below(12) {
        0 if whole => text[at] = rng.pick(b" 0123456789SBFEH\n\t\0-+\xff"),
        1 if whole => text[at] = rng.next() as u8,
        2 => text.truncate(at),
        3 if whole => drop(text.drain(row..row + WIDTH)),
        4 if whole => drop(text.remove(at)),
        5 if whole => text[field..field + COLUMNS].rotate_left(1),
        6 if whole => {
            let wrong: [u8; COLUMNS] =
                *rng.pick(&[b"   0", b"   7", b"1000", b"9999", b"0001", b"  01", b"1   ", b"1  1"]);
            text[field..field + COLUMNS].copy_from_slice(&wrong);
        }
        7 if whole => text[row + WIDTH - 1] = rng.pick(b" \r1"),
        8 => text.insert(at, rng.pick(b" \n1S")),
        9 => *text = text.repeat(rng.between(2, 40)),
        10 => *text = (0..rng.below(3 * WIDTH)).map(|_| rng.next() as u8).collect(),
        _ => text.extend(std::iter::repeat(rng.pick(b" \nS1")).take(rng.between(1, 40))),
    }
}
