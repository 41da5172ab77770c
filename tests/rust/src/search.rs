//! The least good placing: figure atoms in order, sheet atoms ascending, then the links, then the contexts.

use crate::colours::ROUNDS;
use crate::complete::Completing;
use crate::crowded::crowded;
use crate::graph::Graph;
use crate::narrow::{choose, start, take_out, Candidates};
use crate::network::{atoms_in, Atoms, Network, ATOMS};
use crate::placing::Placing;
use crate::symmetry::{sends, twins, Symmetries};

/// When the search looks further than narrowing does. Other bounds change no result.
#[derive(Clone, Copy)]
pub struct Bounds {
    /// Rounds of colours where the figure has no contexts.
    pub rounds: usize,
    /// Work that a failed candidate must have cost before symmetries are looked for.
    pub costly: usize,
    /// Work in all before ways between contexts are counted.
    pub crowded: usize,
    /// Work that failed candidates of an atom must have cost before each candidate of each atom is tried by itself,
    /// and before that is done once more with such a pass inside each try.
    pub singly: [usize; 2],
}

pub const BOUNDS: Bounds = Bounds { rounds: ROUNDS, costly: 16, crowded: 8, singly: [500, 20_000] };
/// What counting ways is taken for as work.
const COUNTING: usize = 2;

struct Search<'a> {
    figure: &'a Network,
    sheet: &'a Network,
    used: [u8; ATOMS],
    twins: [Atoms; ATOMS],
    symmetries: Symmetries,
    bounds: Bounds,
    work: usize,
    /// The half of the contexts by which ways last outnumbered what breaks them.
    half: u8,
}

/// The least good placing of a figure in a sheet, both in normal form; each context number occurs once at most.
pub fn least_placing(sheet: &Graph, figure: &Graph) -> Option<Placing> {
    least_placing_at(sheet, figure, BOUNDS)
}

/// The same with other bounds.
pub fn least_placing_at(sheet: &Graph, figure: &Graph, bounds: Bounds) -> Option<Placing> {
    let carried = |graph: &Graph| graph.marks.iter().map(|&(mark, _)| mark).collect::<Vec<_>>();
    let (has, needs) = (sheet.atoms.len(), figure.atoms.len());
    if needs > has || (figure.contexts.is_empty() && needs < has) || carried(sheet) != carried(figure) {
        return None;
    }
    let (sheet, figure) = (&Network::new(sheet), &Network::new(figure));
    let candidates = start(figure, sheet, bounds.rounds)?;
    let mut search = Search {
        figure,
        sheet,
        used: [0; ATOMS],
        twins: twins(sheet),
        symmetries: Symmetries::default(),
        bounds,
        work: 0,
        half: 0,
    };
    search.place(0, &candidates)
}

impl Search<'_> {
    /// The least good placing that agrees with the first `at` atoms; the number of unplaced atoms falls.
    fn place(&mut self, at: usize, candidates: &Candidates) -> Option<Placing> {
        if at == self.figure.atoms {
            return self.complete(candidates);
        }
        let mut left = candidates.atoms[at];
        if candidates.settled >> at & 1 == 1 {
            self.used[at] = left.trailing_zeros() as u8;
            return self.place(at + 1, candidates);
        }
        let mut failed = Failed { begun: self.work, ..Failed::default() };
        while left != 0 {
            let x = left.trailing_zeros() as usize;
            left &= left - 1;
            if self.fails_too(at, &mut failed, x) {
                continue;
            }
            let before = self.work;
            if let Some(placing) = self.attempt(at, failed.fewer.as_deref().unwrap_or(candidates), x) {
                return Some(placing);
            }
            left &= !self.twins[x];
            if self.work - before >= self.bounds.costly {
                failed.costly |= 1 << x;
            }
            left &= self.kept(at, candidates, &mut failed);
        }
        None
    }

    fn attempt(&mut self, at: usize, candidates: &Candidates, x: usize) -> Option<Placing> {
        self.work += 1;
        self.used[at] = x as u8;
        let mut next = candidates.clone();
        if !choose(self.figure, self.sheet, &mut next, at, x) || self.crowded(&next) {
            return None;
        }
        self.place(at + 1, &next)
    }

    /// The candidates of atom `at` that may still do; fewer where failures have cost so much that each candidate of
    /// each atom is tried by itself.
    fn kept(&mut self, at: usize, candidates: &Candidates, failed: &mut Failed) -> Atoms {
        let due = self.bounds.singly.get(failed.passes).is_some_and(|&bound| self.work - failed.begun >= bound);
        if !due || self.figure.contexts == 0 {
            return Atoms::MAX;
        }
        let mut fewer = failed.fewer.take().unwrap_or_else(|| Box::new(candidates.clone()));
        let any = self.try_singly(&mut fewer, failed.passes);
        let kept = if any { fewer.atoms[at] } else { 0 };
        failed.passes += 1;
        failed.fewer = Some(fewer);
        kept
    }

    /// Drops each candidate of each atom with which nothing good is left, as narrowing and ways show, and so many
    /// passes of the same inside; false where nothing good is left at all.
    fn try_singly(&mut self, candidates: &mut Candidates, inside: usize) -> bool {
        for a in atoms_in(self.figure.all() & !candidates.settled) {
            for x in atoms_in(candidates.atoms[a]) {
                let still = candidates.atoms[a] >> x & 1 == 1;
                if still
                    && self.hopeless(candidates, a, x, inside)
                    && !take_out(self.figure, self.sheet, candidates, a, x)
                {
                    return false;
                }
            }
        }
        true
    }

    /// Whether nothing good is left with atom `a` at `x`.
    fn hopeless(&mut self, candidates: &Candidates, a: usize, x: usize, inside: usize) -> bool {
        let mut next = candidates.clone();
        !choose(self.figure, self.sheet, &mut next, a, x)
            || crowded(self.figure, self.sheet, &next, &mut self.half)
            || (inside > 0 && !self.try_singly(&mut next, inside - 1))
    }

    /// Whether ways between contexts show that nothing good is left; not asked where little has been done so far.
    fn crowded(&mut self, candidates: &Candidates) -> bool {
        if self.figure.contexts < 2 || self.work < self.bounds.crowded {
            return false;
        }
        self.work += COUNTING;
        crowded(self.figure, self.sheet, candidates, &mut self.half)
    }

    /// Whether a symmetry that fixes the atoms used so far sends a costly failed candidate to `x`.
    fn fails_too(&mut self, at: usize, failed: &mut Failed, x: usize) -> bool {
        if failed.costly == 0 {
            return false;
        }
        let used = &self.used[..at];
        if failed.fixed.is_none() {
            failed.fixed = self.symmetries.fixing(self.sheet, used);
        }
        let Some(fixed) = &failed.fixed else {
            return false;
        };
        atoms_in(failed.costly).any(|y| sends(self.sheet, used, fixed, y, x))
    }

    /// The least good placing with all atoms placed, so that each link that is not open has one candidate.
    fn complete(&mut self, candidates: &Candidates) -> Option<Placing> {
        let used = &self.used[..self.figure.atoms];
        let goes = |l: usize| candidates.links[l].trailing_zeros() as usize;
        let mut completing = Completing::new(self.figure, self.sheet, used, goes)?;
        let possible = completing.possible();
        self.work += completing.work;
        if !possible {
            return None;
        }
        let bound = |l: usize| (!self.figure.is_open(l)).then(|| goes(l) as u8);
        let mut placing = Placing {
            atoms: used.to_vec(),
            links: (0..self.figure.links).map(bound).collect(),
            contexts: vec![0; self.sheet.atoms],
        };
        completing.settle(&mut placing.links);
        completing.give(&mut placing.contexts);
        Some(placing)
    }
}

/// What failed candidates of one atom have led to.
#[derive(Default)]
struct Failed {
    /// The work when the first was tried.
    begun: usize,
    /// Candidates that failed at some cost, and the sheet against itself with the used atoms fixed.
    costly: Atoms,
    fixed: Option<Box<Candidates>>,
    /// What trying each candidate by itself has left, and how often that was done.
    fewer: Option<Box<Candidates>>,
    passes: usize,
}
