//! The search against plain enumeration on small sheets and figures.

use plain::enumerate;
use plain::generate::damage::nudge;
use plain::generate::lines::{text, Lines};
use plain::generate::matching::matching;
use plain::generate::random::{Size, Source};
use plain::generate::regular::{grid, hub};
use plain::generate::Rng;
use plain::graph::{normal, Graph};
use plain::read::{read_figure, read_sheet, Figure};
use plain::search::{self, Bounds};

const CASES: usize = 40_000;
/// Placings of atoms and links that enumeration may have to go through.
const MOST: usize = 20_000;
/// Looks further than narrowing does as soon as it can.
const EAGER: Bounds = Bounds { rounds: 0, costly: 1, crowded: 0, singly: [1, 2] };

/// Fewer atoms in the figure, more in the fillings, with two links at most.
const LINKED: Size = Size { atoms: 6, joints: 4, marks: 2, figure_atoms: 1, figure_joints: 5, arity: 2, names: 1 };

/// A sheet and a pattern: mostly the sheet is the filled pattern, as it is or with a row changed.
fn pair(rng: &mut Rng) -> (Lines, Lines) {
    match rng.below(12) {
        0 | 1 => return grid(rng),
        2 => return hub(rng),
        _ => {}
    }
    let names = rng.between(1, 2);
    let size = if rng.chance(1, 2) { Size { names, ..Size::TINY } } else { Size { names, ..LINKED } };
    let family = rng.below(8);
    let mut source = Source::new(rng, size);
    if family == 0 {
        let ports = source.ports();
        return (source.sheet(), source.figure(&ports, false));
    }
    let found = matching(&mut source);
    let (mut sheet, mut pattern) = (found.sheet, found.pattern);
    for _ in 0..rng.between(0, 2) {
        match family {
            1 | 2 => nudge(rng, &mut sheet),
            3 | 4 => nudge(rng, &mut pattern),
            _ => {}
        }
    }
    (sheet, pattern)
}

/// How many placings there are of atoms by name and of links.
fn placings(sheet: &Graph, figure: &Graph) -> usize {
    let alike = |name: u16| sheet.atoms.iter().filter(|atom| atom.name == name).count();
    let links = (sheet.links + 1).saturating_pow(figure.links as u32);
    figure.atoms.iter().fold(links, |count, atom| count.saturating_mul(alike(atom.name)))
}

#[test]
fn search_and_enumeration_agree() {
    let mut rng = Rng::new(20);
    let (mut cases, mut found, mut open, mut shared, mut given) = (0, 0, 0, 0, 0);
    while cases < CASES {
        let (sheet, pattern) = pair(&mut rng);
        let (Ok(sheet), Ok(pattern)) = (read_sheet(&text(&sheet)), read_figure(&text(&pattern), Figure::Pattern))
        else {
            continue;
        };
        let (sheet, pattern) = (normal(&sheet), normal(&pattern));
        if placings(&sheet, &pattern) > MOST {
            continue;
        }
        cases += 1;
        let expected = enumerate::least_placing(&sheet, &pattern);
        let got = search::least_placing(&sheet, &pattern);
        assert_eq!(got, expected, "{sheet:?} {pattern:?}");
        assert_eq!(search::least_placing_at(&sheet, &pattern, EAGER), expected, "{sheet:?} {pattern:?}");
        if let Some(placing) = got {
            found += 1;
            assert!(enumerate::is_good(&sheet, &pattern, &placing));
            open += placing.links.contains(&None) as usize;
            let many = placing.contexts.iter().filter(|&&c| c != 0);
            given += (many.clone().min() != many.max()) as usize;
            let twice = |l: usize| placing.links[l].is_some() && placing.links[..l].contains(&placing.links[l]);
            shared += (0..placing.links.len()).any(twice) as usize;
        }
    }
    println!(
        "{cases} agree: {found} placings, {open} with a link at none, {shared} with two links at one, \
         {given} with atoms in several contexts"
    );
    assert!(found > CASES / 3 && found < CASES && open.min(shared).min(given) > CASES / 40);
}
