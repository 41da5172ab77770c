//! Ways and breakers, at a node of the search and while open links are completed.

use crate::ends::Ends;
use crate::narrow::Candidates;
use crate::network::{Links, Network};
use crate::open::{crossing, Open};
use crate::ways::Passage;

/// Whether, with all atoms placed, some half of the contexts leads to the others by more ways than open links are on
/// both: no good placing is left.
pub fn open_outnumbered(ends: &Ends, open: &Open) -> bool {
    halves(ends.contexts).any(|half| {
        let links = |of: &dyn Fn(usize) -> bool| (0..ends.sheet.links).fold(0, |set, s| set | (of(s) as Links) << s);
        let passage = Passage {
            sheet: ends.sheet,
            atoms: ends.others,
            links: links(&|s| !ends.crossed(s, half)),
            guarded_atoms: 0,
            guarded_links: ends.sheet.all_links(),
            near: links(&|s| ends.here[s] & half != 0),
            far: links(&|s| ends.here[s] & !half != 0),
        };
        passage.outnumbers(open.count(crossing(half)))
    })
}

/// Halves of some contexts, each once: with it the others are the other half.
fn halves(contexts: u8) -> impl Iterator<Item = u8> {
    1..=contexts >> 1
}

/// Whether some half of the contexts leads to the others by more ways than there are breakers: none of the placings
/// that are left is good. `last` is the half that served last, which is looked at first.
pub fn crowded(figure: &Network, sheet: &Network, candidates: &Candidates, last: &mut u8) -> bool {
    let others = halves(figure.all_contexts()).filter(|half| half != last);
    let served = (*last != 0).then_some(*last).into_iter().chain(others).find(|&half| {
        let mut node = Node::new(figure, sheet, candidates, half);
        node.take_links();
        if node.passage.near == 0 || node.passage.far == 0 {
            return false;
        }
        node.take_atoms();
        node.passage.outnumbers(node.breakers)
    });
    *last = served.unwrap_or(*last);
    served.is_some()
}

/// A node of the search with the contexts halved.
struct Node<'a> {
    figure: &'a Network,
    candidates: &'a Candidates,
    half: u8,
    passage: Passage<'a>,
    breakers: usize,
    /// The figure links on the one half alone, on the other alone, and on no context.
    first: Links,
    second: Links,
    alone: Links,
}

impl<'a> Node<'a> {
    fn new(figure: &'a Network, sheet: &'a Network, candidates: &'a Candidates, half: u8) -> Self {
        let passage = Passage {
            sheet,
            atoms: sheet.all(),
            links: sheet.all_links(),
            guarded_atoms: 0,
            guarded_links: 0,
            near: 0,
            far: 0,
        };
        Node { figure, candidates, half, passage, breakers: 0, first: 0, second: 0, alone: 0 }
    }

    /// Links with one candidate are where ways begin and end, or past which none goes; others on both halves are breakers.
    fn take_links(&mut self) {
        for l in 0..self.figure.links {
            let rows = self.figure.rows[l];
            let open = self.figure.is_open(l);
            let places = if open { self.passage.sheet.all_links() } else { self.candidates.links[l] };
            let goes = if !open && places.is_power_of_two() { places } else { 0 };
            match (rows & self.half != 0, rows & !self.half != 0) {
                (true, true) if goes == 0 => {
                    self.breakers += 1;
                    self.passage.guarded_links |= places;
                }
                (true, true) => self.passage.links &= !goes,
                (true, false) => {
                    self.first |= 1 << l;
                    self.passage.near |= goes;
                }
                (false, true) => {
                    self.second |= 1 << l;
                    self.passage.far |= goes;
                }
                (false, false) => {
                    self.alone |= 1 << l;
                    self.passage.links &= !goes;
                }
            }
        }
    }

    /// No way passes atoms that are taken; figure atoms that lead from half to half, or out of all contexts, are breakers.
    fn take_atoms(&mut self) {
        for a in 0..self.figure.atoms {
            let (links, places) = (self.figure.links_of[a], self.candidates.atoms[a]);
            if self.candidates.settled >> a & 1 == 1 {
                self.passage.atoms &= !places;
            } else if links & self.alone != 0 || (links & self.first != 0 && links & self.second != 0) {
                self.breakers += 1;
                self.passage.guarded_atoms |= places;
            }
        }
    }
}
