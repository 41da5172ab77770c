//! Ways in the sheet from one half of the contexts to the other. A way goes from a sheet link where figure links of the
//! one half go to a sheet link where figure links of the other half go, through atoms and their links, past no figure
//! link on both halves. In every good placing a breaker is on it: a figure link on both halves, or a figure atom that
//! leads from half to half. So ways that share no place of a breaker need a breaker each.

use crate::network::{atoms_in, links_in, Atoms, Links, Network, LINKS};

/// What ways may lead through.
pub struct Passage<'a> {
    pub sheet: &'a Network,
    pub atoms: Atoms,
    pub links: Links,
    /// Atoms and links that a breaker may go to: each is on one way at most.
    pub guarded_atoms: Atoms,
    pub guarded_links: Links,
    /// Links where figure links of the one half go, and of the other.
    pub near: Links,
    pub far: Links,
}

impl Passage<'_> {
    /// Whether more ways than breakers are found, so that no good placing is left.
    pub fn outnumbers(&self, breakers: usize) -> bool {
        let few = |ends: Links| ends & !self.guarded_links == 0 && ends.count_ones() as usize <= breakers;
        !few(self.near & self.links) && !few(self.far & self.links) && Ways::new(self).exceed(breakers)
    }
}

/// No link before the first of a way.
const START: u8 = u8::MAX;

/// Ways found one after the other by augmenting.
struct Ways<'a> {
    passage: &'a Passage<'a>,
    /// Guarded links on the ways found, and the link before each.
    used: Links,
    before: [u8; LINKS],
    /// Guarded atoms on the ways found. A way that could be led round one of them is not.
    shut: Atoms,
    /// Links for which this try has looked for another way to them, and for another way from them.
    tried_to: Links,
    tried_from: Links,
}

impl<'a> Ways<'a> {
    fn new(passage: &'a Passage) -> Self {
        Ways { passage, used: 0, before: [START; LINKS], shut: 0, tried_to: 0, tried_from: 0 }
    }

    /// Whether there are more than so many ways.
    fn exceed(&mut self, most: usize) -> bool {
        let mut found = 0;
        for l in links_in(self.passage.near & self.passage.links) {
            while self.begin(l) {
                found += 1;
                if found > most {
                    return true;
                }
            }
        }
        false
    }

    /// Leads one more way from `l`.
    fn begin(&mut self, l: usize) -> bool {
        (self.tried_to, self.tried_from) = (0, 0);
        self.enter(l, START)
    }

    /// Leads a way to `l`; where another one is there and cannot share it, that one has to leave the link before by
    /// another way.
    fn enter(&mut self, l: usize, before: u8) -> bool {
        let bit: Links = 1 << l;
        let free = self.used & bit == 0;
        if !(if free { self.leave(l) } else { self.turn(l) }) {
            return false;
        }
        self.used |= bit & self.passage.guarded_links;
        self.before[l] = before;
        true
    }

    /// Leads the way that comes to `l` elsewhere from the link before it.
    fn turn(&mut self, l: usize) -> bool {
        let before = self.before[l];
        if self.tried_to >> l & 1 == 1 || before == START {
            return false;
        }
        self.tried_to |= 1 << l;
        self.leave(before as usize)
    }

    /// Leads a way on from `l`, to the far half; one that was there is given up if that helps.
    fn leave(&mut self, l: usize) -> bool {
        let bit: Links = 1 << l;
        if self.tried_from & bit != 0 {
            return false;
        }
        self.tried_from |= bit;
        let atoms = self.passage.sheet.atoms_on[l] & self.passage.atoms;
        if self.passage.far & bit != 0 || atoms_in(atoms).any(|x| self.pass(l, x)) {
            return true;
        }
        if self.used & bit != 0 && self.turn(l) {
            self.used &= !bit;
            return true;
        }
        false
    }

    /// Leads a way on from `l` through atom `x`.
    fn pass(&mut self, l: usize, x: usize) -> bool {
        let bit: Atoms = 1 << x;
        if self.shut & bit != 0 {
            return false;
        }
        self.shut |= bit & self.passage.guarded_atoms;
        let next = self.passage.sheet.links_of[x] & self.passage.links & !(1 << l);
        let found = links_in(next).any(|m| self.enter(m, l as u8));
        if !found {
            self.shut &= !bit;
        }
        found
    }
}
