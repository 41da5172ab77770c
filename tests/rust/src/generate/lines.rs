//! Rows before they are bytes.

use crate::row::{write_row, FIELDS, WIDTH};

/// A letter and the fields that are filled, from the first on.
#[derive(Debug, Clone, PartialEq, Eq)]
pub struct Line {
    pub letter: u8,
    pub fields: Vec<u16>,
}

pub type Lines = Vec<Line>;

pub fn line(letter: u8, fields: &[u16]) -> Line {
    Line { letter, fields: fields[..fields.len().min(FIELDS)].to_vec() }
}

/// An S or B row: name or number, count, joints.
pub fn ported(letter: u8, name: u16, joints: &[u16]) -> Line {
    let mut fields = vec![name, joints.len() as u16];
    fields.extend_from_slice(joints);
    Line { letter, fields }
}

/// The text of some rows.
pub fn text(lines: &[Line]) -> Vec<u8> {
    let mut bytes = Vec::with_capacity(WIDTH * lines.len());
    for line in lines {
        let mut row = [0; WIDTH];
        write_row(&mut row, line.letter, &line.fields);
        bytes.extend_from_slice(&row);
    }
    bytes
}
