//! Flat graphs with contexts, and their normal form.

use crate::row::{write_row, LAST_MARK, PORTS, WIDTH};

/// An atom (a symbol).
#[derive(Debug, Clone, Copy, PartialEq, Eq)]
pub struct Atom {
    pub name: u16,
    pub arity: u8,
    pub links: [u16; PORTS],
}

/// A graph context (a blank), with the row of the text that it came from.
#[derive(Debug, Clone, Copy, PartialEq, Eq)]
pub struct Context {
    pub number: u16,
    pub arity: u8,
    pub links: [u16; PORTS],
    pub row: usize,
}

impl Atom {
    pub fn links(&self) -> &[u16] {
        &self.links[..self.arity as usize]
    }
}

impl Context {
    pub fn links(&self) -> &[u16] {
        &self.links[..self.arity as usize]
    }
}

/// A flat graph: its local links are `0..links`; fusions and free links (marks) tie them together.
#[derive(Debug, Clone, Default, PartialEq, Eq)]
pub struct Graph {
    pub atoms: Vec<Atom>,
    pub contexts: Vec<Context>,
    pub fusions: Vec<(u16, u16)>,
    /// Mark and link, in the order of the rows; a mark may stand more than once.
    pub marks: Vec<(u16, u16)>,
    pub links: usize,
}

/// Classes of links under fusion.
struct Classes(Vec<u16>);

impl Classes {
    fn find(&mut self, link: u16) -> u16 {
        let mut at = link;
        while self.0[at as usize] != at {
            let above = self.0[self.0[at as usize] as usize];
            self.0[at as usize] = above;
            at = above;
        }
        at
    }

    fn join(&mut self, a: u16, b: u16) {
        let (a, b) = (self.find(a), self.find(b));
        self.0[a as usize] = b;
    }
}

/// Numbers classes from 0 in the order in which they are asked for.
struct Numbering {
    classes: Classes,
    given: Vec<u16>,
    next: u16,
}

const NOT_GIVEN: u16 = u16::MAX;

impl Numbering {
    fn of(&mut self, link: u16) -> u16 {
        let class = self.classes.find(link) as usize;
        if self.given[class] == NOT_GIVEN {
            self.given[class] = self.next;
            self.next += 1;
        }
        self.given[class]
    }

    fn all(&mut self, links: &mut [u16]) {
        for link in links {
            *link = self.of(*link);
        }
    }
}

/// The normal form: no fusion, each mark once and in ascending order, links numbered by first appearance.
pub fn normal(graph: &Graph) -> Graph {
    let mut classes = Classes((0..graph.links as u16).collect());
    for &(a, b) in &graph.fusions {
        classes.join(a, b);
    }
    let mut marks = join_marks(&mut classes, &graph.marks);
    let mut numbering = Numbering { classes, given: vec![NOT_GIVEN; graph.links], next: 0 };
    let mut atoms = graph.atoms.clone();
    for atom in &mut atoms {
        numbering.all(&mut atom.links[..atom.arity as usize]);
    }
    let mut contexts = graph.contexts.clone();
    for context in &mut contexts {
        numbering.all(&mut context.links[..context.arity as usize]);
    }
    for (_, link) in &mut marks {
        *link = numbering.of(*link);
    }
    Graph { atoms, contexts, fusions: Vec::new(), marks, links: numbering.next as usize }
}

/// Joins the links of equal marks and gives each mark once, ascending.
fn join_marks(classes: &mut Classes, marks: &[(u16, u16)]) -> Vec<(u16, u16)> {
    let mut first = [NOT_GIVEN; LAST_MARK as usize + 1];
    let mut once = Vec::with_capacity(marks.len());
    for &(mark, link) in marks {
        let place = &mut first[mark as usize];
        if *place == NOT_GIVEN {
            *place = link;
            once.push((mark, link));
        } else {
            classes.join(*place, link);
        }
    }
    once.sort_unstable();
    once
}

/// Writes rows one after another; stops at the end of the bytes, which no result within the limits reaches.
pub struct Writer<'a> {
    out: &'a mut [u8],
    written: usize,
}

impl<'a> Writer<'a> {
    pub fn new(out: &'a mut [u8]) -> Self {
        Writer { out, written: 0 }
    }

    /// Bytes written so far.
    pub fn written(&self) -> usize {
        self.written
    }

    pub fn row(&mut self, letter: u8, fields: &[u16]) {
        let rest = &mut self.out[self.written..];
        if let Some(place) = rest.first_chunk_mut::<WIDTH>() {
            write_row(place, letter, fields);
            self.written += WIDTH;
        }
    }

    /// Writes a graph in normal form.
    pub fn graph(&mut self, graph: &Graph) {
        for atom in &graph.atoms {
            self.ported(b'S', atom.name, atom.links());
        }
        for context in &graph.contexts {
            self.ported(b'B', context.number, context.links());
        }
        for &(mark, link) in &graph.marks {
            self.row(b'E', &[link + 1, mark]);
        }
    }

    fn ported(&mut self, letter: u8, name: u16, links: &[u16]) {
        let mut fields = [0; PORTS + 2];
        fields[0] = name;
        fields[1] = links.len() as u16;
        for (field, link) in fields[2..].iter_mut().zip(links) {
            *field = link + 1;
        }
        self.row(letter, &fields[..2 + links.len()]);
    }
}
