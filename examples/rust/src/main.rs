//! Places the stage-and-hut figure in its sheet, and prints the answer's A row and the list of fillings.
mod placer;

use std::io::{self, Write};

const SHEET: [&str; 4] = [
    "S  10   3   1   2   3",
    "S  21   1   1",
    "E   2   1",
    "E   3   2",
];

const FIGURE: [&str; 5] = [
    "S  10   3   1   2   3",
    "B   1   2   3   4",
    "B   2   1   1",
    "E   2   1",
    "E   4   2",
];

/// The rows as a text: each padded with spaces to 33 columns, and a newline.
fn text_of(rows: &[&str]) -> String {
    rows.iter().map(|row| format!("{row:33}\n")).collect()
}

fn main() -> io::Result<()> {
    let mut out = [0; placer::OUT];
    let answer = placer::place(
        text_of(&SHEET).as_bytes(),
        text_of(&FIGURE).as_bytes(),
        &mut out,
    );
    let mut stdout = io::stdout();
    writeln!(
        stdout,
        "A{:4}{:4}{:4}{:20}",
        answer.number, answer.input, answer.row, ""
    )?;
    stdout.write_all(&out[..answer.bytes])
}
