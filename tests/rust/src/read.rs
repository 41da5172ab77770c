//! Reading of texts: sheets, figures and lists of fillings, with the refusals 1 to 8 of a row.

use crate::graph::{Atom, Context, Graph};
use crate::row::{read_row, Row, LAST_CONTEXT, LAST_JOINT, LAST_MARK, PORTS, WIDTH};

/// Most rows of a text.
pub const ROWS: usize = 256;

/// How much a text may hold.
pub struct Limits {
    pub atoms: usize,
    pub contexts: usize,
    pub links: usize,
    pub marks: usize,
}

pub const SHEET: Limits = Limits { atoms: 64, contexts: 0, links: 96, marks: 32 };
pub const FIGURE: Limits = Limits { atoms: 16, contexts: 8, links: 32, marks: 32 };
/// Atoms count over the whole list, links and marks in each filling.
pub const LIST: Limits = Limits { atoms: 64, contexts: 0, links: 102, marks: 32 };

pub const LONG: u16 = 4;
pub const RAGGED: u16 = 1;
pub const STRANGE: u16 = 2;
pub const BAD_COLUMN: u16 = 3;
pub const CROWDED: u16 = 5;
pub const JOINTS: u16 = 6;
pub const MARKS: u16 = 7;
pub const CLASH: u16 = 8;

/// Why a text is turned down, and at which row, counted from 1.
#[derive(Debug, Clone, Copy, PartialEq, Eq)]
pub struct Refusal {
    pub number: u16,
    pub row: usize,
}

/// Port counts by context number; `None` where there is no such context.
pub type Ports = [Option<u8>; LAST_CONTEXT as usize + 1];

/// Which figure is read.
#[derive(Clone, Copy)]
pub enum Figure<'a> {
    /// Each number on one B row at most.
    Pattern,
    /// Rows of one number have one port count.
    Other,
    /// As other figures, and only numbers and counts of the pattern.
    Replacement(&'a Ports),
}

/// One filling of a list: the context it is for, the row of its head, its part of the text, its graph.
pub struct Filling {
    pub number: u16,
    pub arity: u8,
    pub row: usize,
    pub start: usize,
    pub end: usize,
    pub graph: Graph,
}

/// Takes rows in and counts what they hold; ids number the joints in the order of appearance.
struct Taker<'a> {
    limits: &'a Limits,
    graph: Graph,
    atoms: usize,
    marks: usize,
    ids: [u8; LAST_JOINT as usize + 1],
    seen: [bool; LAST_MARK as usize + 1],
}

impl<'a> Taker<'a> {
    fn new(limits: &'a Limits) -> Self {
        Taker {
            limits,
            graph: Graph::default(),
            atoms: 0,
            marks: 0,
            ids: [0; LAST_JOINT as usize + 1],
            seen: [false; LAST_MARK as usize + 1],
        }
    }

    /// The graph taken in so far; links and marks start anew, the count of atoms goes on.
    fn take_graph(&mut self) -> Graph {
        self.marks = 0;
        self.ids.fill(0);
        self.seen.fill(false);
        std::mem::take(&mut self.graph)
    }

    fn link(&mut self, joint: u16) -> u16 {
        let id = &mut self.ids[joint as usize];
        if *id == 0 {
            self.graph.links += 1;
            *id = self.graph.links as u8;
        }
        *id as u16 - 1
    }

    fn links(&mut self, row: &Row) -> [u16; PORTS] {
        let mut links = [0; PORTS];
        for (place, &joint) in links.iter_mut().zip(&row.fields[2..]).take(row.fields[1] as usize) {
            *place = self.link(joint);
        }
        links
    }

    /// Takes in an S, B, F or E row, then tests 5, 6 and 7.
    fn take(&mut self, row: &Row, at: usize) -> Result<(), Refusal> {
        let [first, second, ..] = row.fields;
        let arity = second as u8;
        match row.letter {
            b'S' => {
                self.atoms += 1;
                let links = self.links(row);
                self.graph.atoms.push(Atom { name: first, arity, links });
            }
            b'B' => {
                let links = self.links(row);
                self.graph.contexts.push(Context { number: first, arity, links, row: at });
            }
            b'F' => {
                let pair = (self.link(first), self.link(second));
                self.graph.fusions.push(pair);
            }
            _ => {
                let link = self.link(first);
                self.marks += !self.seen[second as usize] as usize;
                self.seen[second as usize] = true;
                self.graph.marks.push((second, link));
            }
        }
        let number = if self.atoms > self.limits.atoms || self.graph.contexts.len() > self.limits.contexts {
            CROWDED
        } else if self.graph.links > self.limits.links {
            JOINTS
        } else if self.marks > self.limits.marks {
            MARKS
        } else {
            return Ok(());
        };
        Err(Refusal { number, row: at })
    }
}

/// The row `at` (from 1) that starts at the front of `rest`, or refusal 4, 1, 2 or 3.
fn next_row(rest: &[u8], at: usize, allowed: &[u8]) -> Result<Row, Refusal> {
    let refuse = |number| Refusal { number, row: at };
    if at > ROWS {
        return Err(refuse(LONG));
    }
    let bytes = rest.first_chunk::<WIDTH>().ok_or(refuse(RAGGED))?;
    if bytes[WIDTH - 1] != b'\n' {
        return Err(refuse(RAGGED));
    }
    if !allowed.contains(&bytes[0]) {
        return Err(refuse(STRANGE));
    }
    read_row(bytes).ok_or(refuse(BAD_COLUMN))
}

/// Reads a sheet.
pub fn read_sheet(text: &[u8]) -> Result<Graph, Refusal> {
    let mut taker = Taker::new(&SHEET);
    let mut at = 1;
    for rest in text.chunks(WIDTH) {
        taker.take(&next_row(rest, at, b"SFE")?, at)?;
        at += 1;
    }
    Ok(taker.graph)
}

/// Reads a figure; refusal 8 depends on which figure it is.
pub fn read_figure(text: &[u8], figure: Figure) -> Result<Graph, Refusal> {
    let mut taker = Taker::new(&FIGURE);
    let mut ports: Ports = [None; LAST_CONTEXT as usize + 1];
    let mut at = 1;
    for rest in text.chunks(WIDTH) {
        let row = next_row(rest, at, b"SBFE")?;
        taker.take(&row, at)?;
        if row.letter == b'B' {
            let (number, arity) = (row.fields[0] as usize, Some(row.fields[1] as u8));
            let clash = match figure {
                Figure::Pattern => ports[number].is_some(),
                Figure::Other => ports[number].is_some() && ports[number] != arity,
                Figure::Replacement(pattern) => pattern[number] != arity,
            };
            if clash {
                return Err(Refusal { number: CLASH, row: at });
            }
            ports[number] = arity;
        }
        at += 1;
    }
    Ok(taker.graph)
}

/// The port counts of a figure's contexts.
pub fn ports_of(figure: &Graph) -> Ports {
    let mut ports = [None; LAST_CONTEXT as usize + 1];
    for context in &figure.contexts {
        ports[context.number as usize] = Some(context.arity);
    }
    ports
}

/// Reads a list of fillings.
pub fn read_list(text: &[u8]) -> Result<Vec<Filling>, Refusal> {
    let mut taker = Taker::new(&LIST);
    let mut fillings: Vec<Filling> = Vec::new();
    let mut at = 1;
    for rest in text.chunks(WIDTH) {
        let allowed: &[u8] = if fillings.is_empty() { b"H" } else { b"HSFE" };
        let row = next_row(rest, at, allowed)?;
        let start = WIDTH * (at - 1);
        if row.letter == b'H' {
            if let Some(last) = fillings.last_mut() {
                if row.fields[0] <= last.number {
                    return Err(Refusal { number: CLASH, row: at });
                }
                last.end = start;
                last.graph = taker.take_graph();
            }
            fillings.push(Filling {
                number: row.fields[0],
                arity: row.fields[1] as u8,
                row: at,
                start,
                end: text.len(),
                graph: Graph::default(),
            });
        } else {
            taker.take(&row, at)?;
        }
        at += 1;
    }
    if let Some(last) = fillings.last_mut() {
        last.graph = taker.take_graph();
    }
    Ok(fillings)
}
