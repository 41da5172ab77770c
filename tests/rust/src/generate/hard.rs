//! Calls that are hard to answer, by families: what makes them hard is the figure, and any sheet may come with it.

use super::alike::{bundles, copies, cross, cycles, loops};
use super::damage::nudge;
use super::lines::{text, Lines};
use super::matching::{matching, normal_sheet, scramble, Matching};
use super::pattern::{apart, cut, open, pieces, scattered, shared};
use super::random::{Size, Source};
use super::regular::{chain_in, grid, hub, two_rings};
use super::rng::Rng;
use super::shapes::sheet;
use crate::case::{Case, Task};
use crate::tasks::SLIP;

pub struct Family {
    pub name: &'static str,
    /// How many calls are of this family, in proportion; 0 for one that is to be asked for by name.
    share: usize,
    make: fn(&mut Rng) -> Case,
}

pub const FAMILIES: [Family; 14] = [
    Family { name: "open", share: 20, make: |rng| placed(rng, open) },
    Family { name: "shared", share: 20, make: |rng| placed(rng, shared) },
    Family { name: "pieces", share: 10, make: |rng| placed(rng, pieces) },
    Family { name: "apart", share: 5, make: |rng| placed(rng, apart) },
    Family { name: "scattered", share: 0, make: |rng| placed(rng, scattered) },
    Family { name: "cut", share: 25, make: |rng| placed(rng, cut) },
    Family { name: "filled", share: 5, make: |rng| placed(rng, filled) },
    Family { name: "regular", share: 5, make: |rng| placed(rng, regular) },
    Family { name: "compared", share: 5, make: compared },
    Family { name: "claimed", share: 5, make: claimed },
    Family { name: "loops", share: 1, make: |rng| crossed(rng, loops) },
    Family { name: "bundles", share: 1, make: |rng| crossed(rng, bundles) },
    Family { name: "cycles", share: 1, make: |rng| crossed(rng, cycles) },
    Family { name: "copies", share: 2, make: |rng| crossed(rng, copies) },
];

/// A hard call of a family, by its place in the table.
pub fn hard_case(rng: &mut Rng, family: usize) -> Case {
    (FAMILIES[family].make)(rng)
}

/// Any of the families, by their shares.
pub fn any_family(rng: &mut Rng) -> usize {
    let mut left = rng.below(FAMILIES.iter().map(|family| family.share).sum());
    let mut family = 0;
    while left >= FAMILIES[family].share {
        left -= FAMILIES[family].share;
        family += 1;
    }
    family
}

fn case(task: Task, inputs: &[Lines]) -> Case {
    Case { task, inputs: inputs.iter().map(|lines| text(lines)).collect(), slip: SLIP }
}

/// A place, or a swap with the pattern itself, of a sheet and a pattern.
fn placed(rng: &mut Rng, make: fn(&mut Rng) -> (Lines, Lines)) -> Case {
    let (sheet, pattern) = make(rng);
    if rng.chance(1, 3) {
        return case(Task::Swap, &[sheet, pattern.clone(), pattern]);
    }
    case(Task::Place, &[sheet, pattern])
}

/// Changes one of the texts a little, in every second call.
fn nudge_one(rng: &mut Rng, texts: &mut [Lines]) {
    if rng.chance(1, 2) {
        let chosen = rng.below(texts.len());
        nudge(rng, &mut texts[chosen]);
    }
}

/// Texts that belong together, with few names.
fn few_names(rng: &mut Rng) -> Matching {
    let size = if rng.chance(1, 2) { Size::MIDDLE } else { Size::LARGE };
    let names = rng.between(1, 2);
    matching(&mut Source::new(rng, Size { names, ..size }))
}

/// A pattern filled at random.
fn filled(rng: &mut Rng) -> (Lines, Lines) {
    let Matching { sheet, pattern, .. } = few_names(rng);
    let mut texts = [sheet, pattern];
    nudge_one(rng, &mut texts);
    texts.into()
}

fn regular(rng: &mut Rng) -> (Lines, Lines) {
    let make = rng.pick(&[chain_in, hub, grid]);
    make(rng)
}

/// Two sheets that are the same, or nearly.
fn compared(rng: &mut Rng) -> Case {
    if rng.chance(1, 3) {
        return case(Task::Compare, &<[Lines; 2]>::from(two_rings(rng)));
    }
    let first = sheet(rng);
    changed(rng, first, nudge)
}

/// The same for sheets of parts that look alike, where the change is that two atoms are crossed.
fn crossed(rng: &mut Rng, make: fn(&mut Rng) -> Lines) -> Case {
    let first = make(rng);
    changed(rng, first, cross)
}

/// A compare of a sheet with itself written anew, in every second call changed a little before.
fn changed(rng: &mut Rng, first: Lines, change: fn(&mut Rng, &mut Lines)) -> Case {
    let mut second = first.clone();
    if rng.chance(1, 2) {
        change(rng, &mut second);
    }
    let graph = normal_sheet(&second);
    case(Task::Compare, &[first, scramble(rng, &graph)])
}

/// A claim that holds, or nearly.
fn claimed(rng: &mut Rng) -> Case {
    let Matching { sheet, pattern, list, .. } = few_names(rng);
    let mut texts = [sheet, pattern, list];
    nudge_one(rng, &mut texts);
    case(Task::Claim, &texts)
}
