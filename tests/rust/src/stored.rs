//! The stored cases of the repository: `crates/cases` has a line for each, with the task and its files, and what
//! the programs print, one case after the other.

use std::path::PathBuf;

use crate::case::{Calls, Case, Task};
use crate::row::{write_row, WIDTH};
use crate::tasks::{Answer, Verdict, SLIP};

pub struct Stored {
    /// The case's name: its number and family, as `185-large`.
    pub name: String,
    pub case: Case,
    /// The A row and the rows that follow it.
    pub printed: Vec<u8>,
}

impl Stored {
    /// worked, edge, small, large or hard.
    pub fn family(&self) -> &str {
        self.name.split('-').nth(1).unwrap_or("")
    }
}

fn folder() -> PathBuf {
    [env!("CARGO_MANIFEST_DIR"), "..", "..", "crates", "cases"].iter().collect()
}

fn of_line(line: &str, printed: Vec<u8>) -> Stored {
    let mut words = line.split(' ');
    let task = words.next().and_then(|name| Task::ALL.into_iter().find(|task| task.name() == name)).expect("a task");
    let files: Vec<&str> = words.collect();
    let read = |file: &&str| std::fs::read(folder().join("data").join(file)).expect("a file of the data");
    let stem = files[0].trim_end_matches(".txt");
    let name = stem.strip_suffix("-1").unwrap_or(stem).to_string();
    Stored { name, case: Case { task, inputs: files.iter().map(read).collect(), slip: SLIP }, printed }
}

/// Cuts the output of many cases at their A rows.
fn answers(stdout: &[u8]) -> Vec<Vec<u8>> {
    let mut cut: Vec<Vec<u8>> = Vec::new();
    for row in stdout.chunks(WIDTH) {
        if row[0] == b'A' {
            cut.push(Vec::new());
        }
        cut.last_mut().expect("an A row first").extend_from_slice(row);
    }
    cut
}

pub fn stored() -> Vec<Stored> {
    let args = std::fs::read_to_string(folder().join("args")).expect("args");
    let printed = answers(&std::fs::read(folder().join("stdout")).expect("stdout"));
    assert_eq!(args.lines().count(), printed.len());
    args.lines().zip(printed).map(|(line, printed)| of_line(line, printed)).collect()
}

/// What the program of a case prints, by these calls.
pub fn printed(calls: &Calls, case: &Case) -> Vec<u8> {
    let mut out = vec![b'?'; case.slip];
    let a_row = |fields: &[u16]| {
        let mut row = [0; WIDTH];
        write_row(&mut row, b'A', fields);
        row.to_vec()
    };
    match calls.call(case.task, &case.inputs, &mut out) {
        Ok(Answer { number, input, row, bytes }) => {
            let mut printed = a_row(&[number, input, row as u16]);
            printed.extend_from_slice(&out[..bytes]);
            printed
        }
        Err(Verdict { number, input, row, bytes: _, yes }) => a_row(&[number, input, row as u16, yes as u16]),
    }
}
