//! Completing: with all atoms placed, only links on contexts alone are open.

use crate::crowded::open_outnumbered;
use crate::ends::{Before, Ends};
use crate::network::{atoms_in, links_in, Links, Network, CONTEXTS};
use crate::open::{kinds_in, Open};
use crate::remaining::contexts_remain;

pub struct Completing<'a> {
    sheet: &'a Network,
    figure: &'a Network,
    ends: Ends<'a>,
    open: Open,
    /// Steps taken, for the search's idea of what a candidate costs.
    pub work: usize,
}

impl<'a> Completing<'a> {
    /// `used` has the sheet atoms that are taken; `goes` tells where a link goes that is not open.
    /// `None` where two of those can never be linked.
    pub fn new(figure: &'a Network, sheet: &'a Network, used: &[u8], goes: impl Fn(usize) -> usize) -> Option<Self> {
        let taken = used.iter().fold(0, |set, &x| set | 1 << x);
        let mut ends = Ends::new(sheet, sheet.all() & !taken, figure.all_contexts());
        let mut open = Open::new();
        for l in 0..figure.links {
            if figure.is_open(l) {
                open.add(figure.rows[l]);
            } else {
                ends.put(goes(l), figure.rows[l])?;
            }
        }
        Some(Completing { sheet, figure, ends, open, work: 0 })
    }

    /// Whether the open links that are left can be placed so that a good placing comes out.
    /// Falls with the number of open links; leaves everything as it was.
    pub fn possible(&mut self) -> bool {
        self.work += 1;
        if self.ends.sound() {
            return true;
        }
        let kinds = self.open.kinds();
        if kinds == 0 || !contexts_remain(&self.ends, &self.open) || open_outnumbered(&self.ends, &self.open) {
            return false;
        }
        let fault = self.ends.fault();
        let known = self.open.pairs();
        // a link on one context alone mends nothing: it may as well go to none
        let found = kinds_in(kinds).any(|kind| kind.count_ones() > 1 && self.possible_at(fault, kind));
        self.open.forget(known);
        found
    }

    /// Whether an open link of this kind can go to one of these sheet links; those where it cannot are barred.
    fn possible_at(&mut self, links: Links, kind: u8) -> bool {
        self.open.take(kind);
        let found = links_in(links).any(|s| self.possible_with(s, kind));
        self.open.add(kind);
        found
    }

    fn possible_with(&mut self, s: usize, kind: u8) -> bool {
        let Some(before) = self.put(s, kind) else {
            return false;
        };
        self.ends.undo(before);
        true
    }

    /// Puts an open link at `s` if the others can be completed then, else bars its kind there.
    fn put(&mut self, s: usize, kind: u8) -> Option<Before> {
        if self.open.is_barred(kind, s) {
            return None;
        }
        if let Some(before) = self.ends.put(s, kind) {
            if self.possible() {
                return Some(before);
            }
            self.ends.undo(before);
        }
        self.bar(kind, s);
        None
    }

    /// Bars a kind at `s`, and at the links along plain ways from there.
    fn bar(&mut self, kind: u8, s: usize) {
        let mut pending: Links = 1 << s;
        while pending != 0 {
            let y = pending.trailing_zeros() as usize;
            pending &= pending - 1;
            if !self.open.is_barred(kind, y) {
                self.open.bar(kind, y);
                pending |= self.ends.plain_beside(y);
            }
        }
    }

    /// Where the open links go in the least good placing, in their order; all was found possible before.
    pub fn settle(&mut self, links: &mut [Option<u8>]) {
        for l in (0..self.figure.links).filter(|&l| self.figure.is_open(l)) {
            let kind = self.figure.rows[l];
            self.open.take(kind);
            links[l] = (0..self.sheet.links).find(|&s| self.put(s, kind).is_some()).map(|s| s as u8);
        }
    }

    /// Gives each component of the other atoms to the first context that can take it.
    pub fn give(&self, contexts: &mut [u8]) {
        for (atoms, takers) in self.ends.components() {
            let number = self.figure.numbers[takers.trailing_zeros() as usize % CONTEXTS];
            for x in atoms_in(atoms) {
                contexts[x] = number;
            }
        }
    }
}
