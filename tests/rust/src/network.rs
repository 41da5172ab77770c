//! A normal graph as the search sees it: bit sets over at most 64 atoms and 96 links.

use crate::graph::Graph;
use crate::read::SHEET;
use crate::row::{LAST_CONTEXT, PORTS};

pub const ATOMS: usize = SHEET.atoms;
pub const LINKS: usize = SHEET.links;
pub const CONTEXTS: usize = LAST_CONTEXT as usize;

/// A set of atoms.
pub type Atoms = u64;
/// A set of links.
pub type Links = u128;

pub struct Network {
    pub atoms: usize,
    pub links: usize,
    pub name: [u16; ATOMS],
    pub arity: [u8; ATOMS],
    /// The link at each place of an atom.
    pub ends: [[u8; PORTS]; ATOMS],
    /// The links of an atom as a set.
    pub links_of: [Links; ATOMS],
    /// The atoms on a link.
    pub atoms_on: [Atoms; LINKS],
    /// The atoms that have a link at a place.
    pub atoms_at: [[Atoms; LINKS]; PORTS],
    /// Places of atoms on a link, counted.
    pub ports: [u16; LINKS],
    /// The marks of a link, as bits in ascending order of the graph's marks.
    pub marks: [u32; LINKS],
    /// The links that touch an atom or a mark. The others are open: only contexts hold them.
    pub bound: Links,
    /// The contexts on a link, as bits in ascending order of their numbers.
    pub rows: [u8; LINKS],
    /// Context numbers, ascending.
    pub numbers: [u8; CONTEXTS],
    pub contexts: usize,
    /// For each context the links that steps between links of one context lead to from its own.
    kin: [Links; CONTEXTS],
}

impl Network {
    /// `graph` is normal, within the limits of a sheet, and has each context number once at most.
    pub fn new(graph: &Graph) -> Self {
        let mut net = Network {
            atoms: graph.atoms.len(),
            links: graph.links,
            name: [0; ATOMS],
            arity: [0; ATOMS],
            ends: [[0; PORTS]; ATOMS],
            links_of: [0; ATOMS],
            atoms_on: [0; LINKS],
            atoms_at: [[0; LINKS]; PORTS],
            ports: [0; LINKS],
            marks: [0; LINKS],
            bound: 0,
            rows: [0; LINKS],
            numbers: [0; CONTEXTS],
            contexts: graph.contexts.len(),
            kin: [0; CONTEXTS],
        };
        for (a, atom) in graph.atoms.iter().enumerate() {
            net.name[a] = atom.name;
            net.arity[a] = atom.arity;
            for (i, &link) in atom.links().iter().enumerate() {
                net.ends[a][i] = link as u8;
                net.links_of[a] |= 1 << link;
                net.atoms_on[link as usize] |= 1 << a;
                net.atoms_at[i][link as usize] |= 1 << a;
                net.ports[link as usize] += 1;
            }
            net.bound |= net.links_of[a];
        }
        for (bit, &(_, link)) in graph.marks.iter().enumerate() {
            net.marks[link as usize] |= 1 << bit;
            net.bound |= 1 << link;
        }
        net.take_contexts(graph);
        net
    }

    fn take_contexts(&mut self, graph: &Graph) {
        for context in &graph.contexts {
            let below = |c: &&crate::graph::Context| c.number < context.number;
            let rank = graph.contexts.iter().filter(below).count();
            self.numbers[rank] = context.number as u8;
            for &link in context.links() {
                self.rows[link as usize] |= 1 << rank;
                self.kin[rank] |= 1 << link;
            }
        }
        for step in 0..CONTEXTS {
            let through = self.kin[step];
            for c in 0..CONTEXTS {
                if self.kin[c] & through != 0 {
                    self.kin[c] |= through;
                }
            }
        }
    }

    /// The links that may go to one place with a link: itself, and those that contexts lead to from it.
    pub fn kin_of(&self, link: usize) -> Links {
        match self.rows[link] {
            0 => 1 << link,
            rows => self.kin[rows.trailing_zeros() as usize],
        }
    }

    /// The places of an atom.
    pub fn places(&self, atom: usize) -> &[u8] {
        &self.ends[atom][..self.arity[atom] as usize]
    }

    /// All atoms.
    pub fn all(&self) -> Atoms {
        all_below(self.atoms)
    }

    /// All links.
    pub fn all_links(&self) -> Links {
        (1 << self.links) - 1
    }

    /// All contexts, as bits.
    pub fn all_contexts(&self) -> u8 {
        (1 << self.contexts) - 1
    }

    pub fn is_open(&self, link: usize) -> bool {
        self.bound >> link & 1 == 0
    }
}

fn all_below(count: usize) -> u64 {
    if count >= 64 {
        u64::MAX
    } else {
        (1 << count) - 1
    }
}

/// The members of a set of atoms, ascending.
pub fn atoms_in(mut set: Atoms) -> impl Iterator<Item = usize> {
    std::iter::from_fn(move || {
        let least = set.trailing_zeros() as usize;
        set &= set.wrapping_sub(1);
        (least < 64).then_some(least)
    })
}

/// The members of a set of links, ascending.
pub fn links_in(mut set: Links) -> impl Iterator<Item = usize> {
    std::iter::from_fn(move || {
        let least = set.trailing_zeros() as usize;
        set &= set.wrapping_sub(1);
        (least < 128).then_some(least)
    })
}
