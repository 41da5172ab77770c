//! The open links of a figure, whose kind is the set of contexts that they are on: links of one kind are
//! interchangeable, so they are counted, and where one of them cannot go none can.

use crate::network::{CONTEXTS, LINKS};

const KINDS: usize = 1 << CONTEXTS;
/// A set of kinds.
pub type Kinds = u16;

pub struct Open {
    /// Open links that are left, by kind.
    left: [u8; KINDS],
    /// Kinds that no completion sends to a sheet link.
    barred: [Kinds; LINKS],
    /// The pairs that were barred, in their order.
    pairs: Vec<(u8, u8)>,
}

impl Open {
    pub fn new() -> Self {
        Open { left: [0; KINDS], barred: [0; LINKS], pairs: Vec::new() }
    }

    pub fn add(&mut self, kind: u8) {
        self.left[kind as usize] += 1;
    }

    pub fn take(&mut self, kind: u8) {
        self.left[kind as usize] -= 1;
    }

    /// The kinds of which a link is left.
    pub fn kinds(&self) -> Kinds {
        (0..KINDS).fold(0, |set, kind| set | ((self.left[kind] > 0) as Kinds) << kind)
    }

    /// How many links are left of these kinds.
    pub fn count(&self, kinds: Kinds) -> usize {
        kinds_in(kinds).map(|kind| self.left[kind as usize] as usize).sum()
    }

    /// The kinds that are barred at a sheet link.
    pub fn barred(&self, s: usize) -> Kinds {
        self.barred[s]
    }

    pub fn is_barred(&self, kind: u8, s: usize) -> bool {
        self.barred[s] >> kind & 1 == 1
    }

    /// A link of this kind at `s` leaves no completion.
    pub fn bar(&mut self, kind: u8, s: usize) {
        self.barred[s] |= 1 << kind;
        self.pairs.push((kind, s as u8));
    }

    /// How many pairs are barred.
    pub fn pairs(&self) -> usize {
        self.pairs.len()
    }

    /// Forgets all pairs after the first `count`.
    pub fn forget(&mut self, count: usize) {
        for (kind, s) in self.pairs.drain(count..) {
            self.barred[s as usize] &= !(1 << kind);
        }
    }
}

/// The members of a set of kinds, ascending.
pub fn kinds_in(mut set: Kinds) -> impl Iterator<Item = u8> {
    std::iter::from_fn(move || {
        let least = set.trailing_zeros() as u8;
        set &= set.wrapping_sub(1);
        (least < KINDS as u8).then_some(least)
    })
}

/// The kinds that meet both halves of the contexts: those in `half`, and the others.
pub fn crossing(half: u8) -> Kinds {
    let crosses = |kind: &u8| kind & half != 0 && kind & !half != 0;
    (0..KINDS as u8).filter(crosses).fold(0, |set, kind| set | 1 << kind)
}
