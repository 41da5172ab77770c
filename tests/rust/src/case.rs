//! One call of a task as data: inputs, length of the slip, outcome.

use crate::tasks::{claim, compare, fill, normalise_figure, normalise_sheet, place, swap, Answer, Verdict};

#[derive(Debug, Clone, Copy, PartialEq, Eq)]
pub enum Task {
    NormaliseSheet,
    NormaliseFigure,
    Compare,
    Fill,
    Place,
    Claim,
    Swap,
}

impl Task {
    pub const ALL: [Task; 7] =
        [Task::NormaliseSheet, Task::NormaliseFigure, Task::Compare, Task::Fill, Task::Place, Task::Claim, Task::Swap];

    /// The program that runs the task.
    pub fn name(self) -> &'static str {
        match self {
            Task::NormaliseSheet => "normalise",
            Task::NormaliseFigure => "normalise_figure",
            Task::Compare => "compare",
            Task::Fill => "fill",
            Task::Place => "place",
            Task::Claim => "claim",
            Task::Swap => "swap",
        }
    }

    /// Whether the task writes to a slip.
    pub fn has_output(self) -> bool {
        !matches!(self, Task::Compare | Task::Claim)
    }
}

/// The numbers that a task can answer, ascending. Contexts clash only in figures and lists, edges differ only where
/// fillings or two figures meet, compare and claim have no output, and only filled figures can be too large.
pub fn numbers_of(task: Task) -> &'static [u16] {
    match task {
        Task::NormaliseSheet => &[0, 1, 2, 3, 4, 5, 6, 7, 10],
        Task::NormaliseFigure => &[0, 1, 2, 3, 4, 5, 6, 7, 8, 10],
        Task::Compare => &[0, 1, 2, 3, 4, 5, 6, 7],
        Task::Fill => &[0, 1, 2, 3, 4, 5, 6, 7, 8, 9, 10, 12],
        Task::Place => &[0, 1, 2, 3, 4, 5, 6, 7, 8, 10, 11],
        Task::Claim => &[0, 1, 2, 3, 4, 5, 6, 7, 8, 9],
        Task::Swap => &[0, 1, 2, 3, 4, 5, 6, 7, 8, 9, 10, 11, 12],
    }
}

/// A call: the inputs in task order, and the length of the slip (without meaning for tasks without output).
#[derive(Debug, Clone, PartialEq, Eq)]
pub struct Case {
    pub task: Task,
    pub inputs: Vec<Vec<u8>>,
    pub slip: usize,
}

/// What a call gives; `bytes` is 0 and `out` empty for tasks without output, `yes` is false for those with output.
#[derive(Debug, Clone, PartialEq, Eq)]
pub struct Outcome {
    pub number: u16,
    pub input: u16,
    pub row: usize,
    pub bytes: usize,
    pub yes: bool,
    /// The whole slip after the call.
    pub out: Vec<u8>,
}

/// A slip with old bytes: none of them is 0 or occurs in a row, and neighbours differ.
pub fn old_slip(length: usize) -> Vec<u8> {
    (0..length).map(|i| 0x80 | (i % 127) as u8).collect()
}

/// The calls of one implementation.
pub struct Calls {
    pub normalise_sheet: fn(&[u8], &mut [u8]) -> Answer,
    pub normalise_figure: fn(&[u8], &mut [u8]) -> Answer,
    pub compare: fn(&[u8], &[u8]) -> Verdict,
    pub fill: fn(&[u8], &[u8], &mut [u8]) -> Answer,
    pub place: fn(&[u8], &[u8], &mut [u8]) -> Answer,
    pub claim: fn(&[u8], &[u8], &[u8]) -> Verdict,
    pub swap: fn(&[u8], &[u8], &[u8], &mut [u8]) -> Answer,
}

/// The calls of this library.
pub const PLAIN: Calls = Calls { normalise_sheet, normalise_figure, compare, fill, place, claim, swap };

impl Calls {
    /// One call on a slip of the caller's. An input that is missing counts as empty.
    pub fn call(&self, task: Task, inputs: &[Vec<u8>], out: &mut [u8]) -> Result<Answer, Verdict> {
        let input = |i: usize| inputs.get(i).map_or(&[][..], Vec::as_slice);
        match task {
            Task::NormaliseSheet => Ok((self.normalise_sheet)(input(0), out)),
            Task::NormaliseFigure => Ok((self.normalise_figure)(input(0), out)),
            Task::Fill => Ok((self.fill)(input(0), input(1), out)),
            Task::Place => Ok((self.place)(input(0), input(1), out)),
            Task::Swap => Ok((self.swap)(input(0), input(1), input(2), out)),
            Task::Compare => Err((self.compare)(input(0), input(1))),
            Task::Claim => Err((self.claim)(input(0), input(1), input(2))),
        }
    }

    /// Runs a case on a slip with old bytes.
    pub fn run(&self, case: &Case) -> Outcome {
        let mut out = old_slip(if case.task.has_output() { case.slip } else { 0 });
        match self.call(case.task, &case.inputs, &mut out) {
            Ok(Answer { number, input, row, bytes }) => Outcome { number, input, row, bytes, yes: false, out },
            Err(Verdict { number, input, row, bytes, yes }) => Outcome { number, input, row, bytes, yes, out },
        }
    }
}

/// Runs a case with this library.
pub fn run_plain(case: &Case) -> Outcome {
    PLAIN.run(case)
}
