//! Narrowing: for each figure atom the sheet atoms, for each figure link the sheet links that are left to it.
//! Only candidates that belong to no good placing are dropped.

use crate::colours::{spread_both, Colours};
use crate::network::{atoms_in, links_in, Atoms, Links, Network, ATOMS, LINKS};

#[derive(Clone)]
pub struct Candidates {
    pub atoms: [Atoms; ATOMS],
    /// Means nothing for open links.
    pub links: [Links; LINKS],
    /// Figure atoms with one candidate that has been taken from all others.
    pub settled: Atoms,
    /// Figure links with one candidate that has been taken from all that are not kin.
    alone: Links,
}

/// The candidates by name, port counts and marks, and without contexts by colours after so many rounds, narrowed; `None`
/// where some set is empty.
pub fn start(figure: &Network, sheet: &Network, rounds: usize) -> Option<Candidates> {
    let mut candidates = if figure.contexts == 0 && rounds > 0 {
        let (mut of_figure, mut of_sheet) = (Colours::new(figure), Colours::new(sheet));
        if !spread_both(&mut of_figure, figure, &mut of_sheet, sheet, rounds) {
            return None;
        }
        let atoms = |a: usize, x: usize| of_figure.atoms[a] == of_sheet.atoms[x] && alike(figure, a, sheet, x);
        let links = |l: usize, s: usize| of_figure.links[l] == of_sheet.links[s] && can_go(figure, l, sheet, s);
        first_candidates(figure, sheet, atoms, links)?
    } else {
        first_candidates(figure, sheet, |a, x| alike(figure, a, sheet, x), |l, s| can_go(figure, l, sheet, s))?
    };
    let mut narrowing = Narrowing::new(figure, sheet, &mut candidates);
    narrowing.begin();
    narrowing.run().then_some(candidates)
}

/// The candidates by tests of an atom and a link; `None` where a link has none.
fn first_candidates(
    figure: &Network,
    sheet: &Network,
    atoms: impl Fn(usize, usize) -> bool,
    links: impl Fn(usize, usize) -> bool,
) -> Option<Candidates> {
    let mut candidates = Candidates { atoms: [0; ATOMS], links: [0; LINKS], settled: 0, alone: 0 };
    for a in 0..figure.atoms {
        for x in 0..sheet.atoms {
            candidates.atoms[a] |= (atoms(a, x) as Atoms) << x;
        }
    }
    for l in 0..figure.links {
        for s in 0..sheet.links {
            candidates.links[l] |= (links(l, s) as Links) << s;
        }
        if candidates.links[l] == 0 && !figure.is_open(l) {
            return None;
        }
    }
    Some(candidates)
}

/// Same name and port count, and equal links of the figure atom are equal in the sheet atom.
fn alike(figure: &Network, a: usize, sheet: &Network, x: usize) -> bool {
    if figure.name[a] != sheet.name[x] || figure.arity[a] != sheet.arity[x] {
        return false;
    }
    let (from, to) = (figure.places(a), sheet.places(x));
    let first = |i: usize| from.iter().position(|&l| l == from[i]).unwrap_or(i);
    (0..from.len()).all(|i| to[i] == to[first(i)])
}

/// Marks and port counts allow link `l` to go to `s`: a link on no context needs the same marks and as many ports,
/// since nothing else may stand at its sheet link.
fn can_go(figure: &Network, l: usize, sheet: &Network, s: usize) -> bool {
    if figure.rows[l] == 0 {
        figure.marks[l] == sheet.marks[s] && figure.ports[l] == sheet.ports[s]
    } else {
        figure.marks[l] & !sheet.marks[s] == 0 && figure.ports[l] <= sheet.ports[s]
    }
}

/// Sends figure atom `a` to `x` and narrows; false where no good placing is left.
pub fn choose(figure: &Network, sheet: &Network, candidates: &mut Candidates, a: usize, x: usize) -> bool {
    choose_all(figure, sheet, candidates, std::iter::once((a, x)))
}

/// Takes `x` from the candidates of figure atom `a` and narrows; false where no good placing is left.
pub fn take_out(figure: &Network, sheet: &Network, candidates: &mut Candidates, a: usize, x: usize) -> bool {
    let mut narrowing = Narrowing::new(figure, sheet, candidates);
    narrowing.keep_atoms(a, !(1 << x));
    narrowing.run()
}

/// Sends the first atom of each pair to the second and narrows.
pub fn choose_all(
    figure: &Network,
    sheet: &Network,
    candidates: &mut Candidates,
    pairs: impl Iterator<Item = (usize, usize)>,
) -> bool {
    let mut narrowing = Narrowing::new(figure, sheet, candidates);
    for (a, x) in pairs {
        narrowing.keep_atoms(a, 1 << x);
    }
    narrowing.run()
}

/// One run of narrowing: what was dropped and has not been followed up yet.
struct Narrowing<'a> {
    figure: &'a Network,
    sheet: &'a Network,
    candidates: &'a mut Candidates,
    dropped_atoms: [Atoms; ATOMS],
    dropped_links: [Links; LINKS],
    pending_atoms: Atoms,
    pending_links: Links,
    /// Links that have one candidate left, still to be taken from others.
    pending_alone: Links,
}

impl<'a> Narrowing<'a> {
    fn new(figure: &'a Network, sheet: &'a Network, candidates: &'a mut Candidates) -> Self {
        Narrowing {
            figure,
            sheet,
            candidates,
            dropped_atoms: [0; ATOMS],
            dropped_links: [0; LINKS],
            pending_atoms: 0,
            pending_links: 0,
            pending_alone: 0,
        }
    }

    /// Keeps of each link what its atoms can give, and marks everything else as just dropped.
    fn begin(&mut self) {
        let figure = self.figure;
        for a in 0..figure.atoms {
            for (i, &l) in figure.places(a).iter().enumerate() {
                self.candidates.links[l as usize] &= self.given(self.candidates.atoms[a], i);
            }
        }
        self.pending_atoms = figure.all();
        self.pending_links = figure.bound;
        for l in links_in(figure.bound) {
            self.dropped_links[l] = self.sheet.all_links() & !self.candidates.links[l];
        }
    }

    /// The sheet links that a set of sheet atoms has at place `i`.
    fn given(&self, atoms: Atoms, i: usize) -> Links {
        atoms_in(atoms).fold(0, |set, x| set | 1 << self.sheet.ends[x][i])
    }

    /// Drops all candidates of atom `a` that are not in `keep`.
    fn keep_atoms(&mut self, a: usize, keep: Atoms) {
        let gone = self.candidates.atoms[a] & !keep;
        if gone != 0 {
            self.candidates.atoms[a] &= keep;
            self.dropped_atoms[a] |= gone;
            self.pending_atoms |= 1 << a;
        }
    }

    /// Drops all candidates of link `l` that are not in `keep`.
    fn keep_links(&mut self, l: usize, keep: Links) {
        let gone = self.candidates.links[l] & !keep;
        if gone != 0 {
            self.candidates.links[l] &= keep;
            self.dropped_links[l] |= gone;
            self.pending_links |= 1 << l;
        }
    }

    /// Follows every drop until nothing changes; false where a set becomes empty.
    fn run(&mut self) -> bool {
        loop {
            if self.pending_links != 0 {
                let l = self.pending_links.trailing_zeros() as usize;
                self.pending_links &= self.pending_links - 1;
                if self.candidates.links[l] == 0 {
                    return false;
                }
                self.follow_link(l);
            } else if self.pending_atoms != 0 {
                let a = self.pending_atoms.trailing_zeros() as usize;
                self.pending_atoms &= self.pending_atoms - 1;
                if self.candidates.atoms[a] == 0 {
                    return false;
                }
                self.follow_atom(a);
            } else if self.pending_alone != 0 {
                let l = self.pending_alone.trailing_zeros() as usize;
                self.pending_alone &= self.pending_alone - 1;
                self.follow_alone(l);
            } else {
                return true;
            }
        }
    }

    /// Link `l` has lost candidates: its atoms lose those that would bring it there.
    fn follow_link(&mut self, l: usize) {
        let gone = std::mem::take(&mut self.dropped_links[l]);
        let left = self.candidates.links[l];
        let few = left.count_ones() < gone.count_ones();
        self.pending_alone |= Links::from(left.is_power_of_two()) << l;
        for a in atoms_in(self.figure.atoms_on[l]) {
            for (i, _) in self.figure.places(a).iter().enumerate().filter(|&(_, &m)| m as usize == l) {
                let at = &self.sheet.atoms_at[i];
                let union = |links: Links| links_in(links).fold(0, |set, s| set | at[s]);
                let keep = if few { union(left) } else { !union(gone) };
                self.keep_atoms(a, keep);
            }
        }
    }

    /// Atom `a` has lost candidates: its links lose those that no candidate left can give;
    /// a last candidate is taken from all other atoms.
    fn follow_atom(&mut self, a: usize) {
        let gone = std::mem::take(&mut self.dropped_atoms[a]);
        let left = self.candidates.atoms[a];
        let few = left.count_ones() < gone.count_ones();
        let (figure, sheet) = (self.figure, self.sheet);
        for (i, &l) in figure.places(a).iter().enumerate() {
            let at = &sheet.atoms_at[i];
            let keep = if few {
                self.given(left, i)
            } else {
                !links_in(self.given(gone, i)).fold(0, |set, s| set | ((at[s] & left == 0) as Links) << s)
            };
            self.keep_links(l as usize, keep);
        }
        if left.is_power_of_two() && self.candidates.settled >> a & 1 == 0 {
            self.candidates.settled |= 1 << a;
            for b in atoms_in(figure.all() & !self.candidates.settled) {
                self.keep_atoms(b, !left);
            }
        }
    }

    /// Link `l` has one candidate: links that are not kin lose it. Nobody has it where the atoms of a link on no
    /// context have settled, since nothing else is at it.
    fn follow_alone(&mut self, l: usize) {
        let figure = self.figure;
        self.candidates.alone |= 1 << l;
        if figure.rows[l] == 0 && figure.atoms_on[l] & !self.candidates.settled == 0 {
            return;
        }
        let left = self.candidates.links[l];
        for m in links_in(figure.bound & !figure.kin_of(l) & !self.candidates.alone) {
            self.keep_links(m, !left);
        }
    }
}
