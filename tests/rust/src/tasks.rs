//! The seven tasks and the part of a list that holds one filling.

use crate::fill::{filled, first_differing, first_lacking};
use crate::graph::{normal, Graph, Writer};
use crate::placing::{fillings, write_fillings};
use crate::read::{ports_of, read_figure, read_list, read_sheet, Figure, Filling, Refusal, CLASH};
use crate::search::least_placing;

/// Least length of an output slip.
pub const SLIP: usize = 4096;

pub const DONE: u16 = 0;
pub const EDGE_DIFFERS: u16 = 9;
pub const SHORT_SLIP: u16 = 10;
pub const NO_PLACING: u16 = 11;
pub const TOO_LARGE: u16 = 12;

/// The outcome of a task with output: number, input and row (0 where none is named), bytes written.
#[derive(Debug, Clone, Copy, PartialEq, Eq)]
pub struct Answer {
    pub number: u16,
    pub input: u16,
    pub row: usize,
    pub bytes: usize,
}

/// The outcome of a task without output: no bytes are written, and `yes` is false in a refusal.
#[derive(Debug, Clone, Copy, PartialEq, Eq)]
pub struct Verdict {
    pub number: u16,
    pub input: u16,
    pub row: usize,
    pub bytes: usize,
    pub yes: bool,
}

/// A refusal with the input that it names, 0 for none.
struct Refused {
    number: u16,
    input: u16,
    row: usize,
}

fn refused(number: u16, input: u16, row: usize) -> Refused {
    Refused { number, input, row }
}

/// Names the input of a reader's refusal.
fn of(input: u16) -> impl Fn(Refusal) -> Refused {
    move |refusal| refused(refusal.number, input, refusal.row)
}

fn answer(result: Result<usize, Refused>) -> Answer {
    match result {
        Ok(bytes) => Answer { number: DONE, input: 0, row: 0, bytes },
        Err(Refused { number, input, row }) => Answer { number, input, row, bytes: 0 },
    }
}

fn verdict(result: Result<bool, Refused>) -> Verdict {
    match result {
        Ok(yes) => Verdict { number: DONE, input: 0, row: 0, bytes: 0, yes },
        Err(Refused { number, input, row }) => Verdict { number, input, row, bytes: 0, yes: false },
    }
}

fn long_enough(out: &[u8]) -> Result<(), Refused> {
    if out.len() < SLIP {
        return Err(refused(SHORT_SLIP, 0, 0));
    }
    Ok(())
}

fn write(graph: &Graph, out: &mut [u8]) -> usize {
    let mut writer = Writer::new(out);
    writer.graph(graph);
    writer.written()
}

/// Writes a sheet's normal text.
pub fn normalise_sheet(text: &[u8], out: &mut [u8]) -> Answer {
    answer(long_enough(out).and_then(|()| {
        let sheet = read_sheet(text).map_err(of(1))?;
        Ok(write(&normal(&sheet), out))
    }))
}

/// Writes a figure's normal text.
pub fn normalise_figure(text: &[u8], out: &mut [u8]) -> Answer {
    answer(long_enough(out).and_then(|()| {
        let figure = read_figure(text, Figure::Other).map_err(of(1))?;
        Ok(write(&normal(&figure), out))
    }))
}

/// Whether two sheets are the same: the second, as a figure without contexts, has a placing in the first.
pub fn compare(a: &[u8], b: &[u8]) -> Verdict {
    verdict(both_sheets(a, b))
}

fn both_sheets(a: &[u8], b: &[u8]) -> Result<bool, Refused> {
    let a = read_sheet(a).map_err(of(1))?;
    let b = read_sheet(b).map_err(of(2))?;
    Ok(least_placing(&normal(&a), &normal(&b)).is_some())
}

/// Writes the normal text of a figure filled from a list.
pub fn fill(figure: &[u8], list: &[u8], out: &mut [u8]) -> Answer {
    answer(long_enough(out).and_then(|()| {
        let (figure, list) = figure_and_list(figure, list, 1)?;
        let result = filled(&figure, |number| graph_in(&list, number));
        Ok(write(&result.ok_or(refused(TOO_LARGE, 0, 0))?, out))
    }))
}

/// Reads a figure, which is input `input`, and the list after it, and tests 8 and 9 over both.
fn figure_and_list(figure: &[u8], list: &[u8], input: u16) -> Result<(Graph, Vec<Filling>), Refused> {
    let figure = read_figure(figure, Figure::Other).map_err(of(input))?;
    let list = read_list(list).map_err(of(input + 1))?;
    if let Some(row) = first_lacking(&figure, &list) {
        return Err(refused(CLASH, input, row));
    }
    if let Some(row) = first_differing(&list) {
        return Err(refused(EDGE_DIFFERS, input + 1, row));
    }
    Ok((figure, list))
}

fn graph_in(list: &[Filling], number: u16) -> Option<&Graph> {
    list.iter().find(|f| f.number == number).map(|f| &f.graph)
}

/// Finds a pattern in a sheet and writes the fillings of the least good placing.
pub fn place(sheet: &[u8], pattern: &[u8], out: &mut [u8]) -> Answer {
    answer(long_enough(out).and_then(|()| {
        let sheet = read_sheet(sheet).map_err(of(1))?;
        let pattern = read_figure(pattern, Figure::Pattern).map_err(of(2))?;
        let fillings = chosen(&sheet, &pattern)?;
        let mut writer = Writer::new(out);
        write_fillings(&mut writer, &fillings);
        Ok(writer.written())
    }))
}

/// The fillings of the least good placing: number, port count and graph of each.
fn chosen(sheet: &Graph, pattern: &Graph) -> Result<Vec<(u16, u16, Graph)>, Refused> {
    let (sheet, pattern) = (normal(sheet), normal(pattern));
    let placing = least_placing(&sheet, &pattern).ok_or(refused(NO_PLACING, 0, 0))?;
    Ok(fillings(&sheet, &pattern, &placing))
}

/// Whether a figure filled from a list is the same as a sheet.
pub fn claim(sheet: &[u8], figure: &[u8], list: &[u8]) -> Verdict {
    verdict(holds(sheet, figure, list))
}

fn holds(sheet: &[u8], figure: &[u8], list: &[u8]) -> Result<bool, Refused> {
    let sheet = read_sheet(sheet).map_err(of(1))?;
    let (figure, list) = figure_and_list(figure, list, 2)?;
    let result = filled(&figure, |number| graph_in(&list, number));
    Ok(result.is_some_and(|result| least_placing(&normal(&sheet), &result).is_some()))
}

/// Finds a pattern in a sheet and writes the normal text of the replacement holding the fillings.
pub fn swap(sheet: &[u8], pattern: &[u8], replacement: &[u8], out: &mut [u8]) -> Answer {
    answer(long_enough(out).and_then(|()| {
        let sheet = read_sheet(sheet).map_err(of(1))?;
        let pattern = read_figure(pattern, Figure::Pattern).map_err(of(2))?;
        let shape = Figure::Replacement(&ports_of(&pattern));
        let replacement = read_figure(replacement, shape).map_err(of(3))?;
        if !same_marks(&pattern, &replacement) {
            return Err(refused(EDGE_DIFFERS, 3, 0));
        }
        let fillings = chosen(&sheet, &pattern)?;
        let graph = |number| fillings.iter().find(|f| f.0 == number).map(|f| &f.2);
        let result = filled(&replacement, graph);
        Ok(write(&result.ok_or(refused(TOO_LARGE, 0, 0))?, out))
    }))
}

fn same_marks(a: &Graph, b: &Graph) -> bool {
    let within = |a: &Graph, b: &Graph| a.marks.iter().all(|&(mark, _)| b.marks.iter().any(|m| m.0 == mark));
    within(a, b) && within(b, a)
}

/// The part of a list that holds the filling of one context, its head first;
/// empty where a row is refused or the context has no filling.
pub fn filling_of(list: &[u8], number: u16) -> &[u8] {
    let fillings = read_list(list).unwrap_or_default();
    let found = fillings.iter().find(|f| f.number == number);
    found.map_or(&[], |f| &list[f.start..f.end])
}
