//! What the search does besides narrowing changes no answer: it is the same whenever that is done.

use plain::generate::hard::{hard_case, FAMILIES};
use plain::generate::lines::text;
use plain::generate::regular::{chain_in, two_rings};
use plain::generate::Rng;
use plain::graph::{normal, Graph};
use plain::read::{read_figure, read_sheet, Figure};
use plain::search::{least_placing_at, Bounds, BOUNDS};

/// Reads a sheet and a pattern or, with the larger limits, a sheet in its place.
fn read_both(sheet: &[u8], figure: &[u8]) -> Option<(Graph, Graph)> {
    let figure = read_figure(figure, Figure::Pattern).or_else(|_| read_sheet(figure)).ok()?;
    Some((normal(&read_sheet(sheet).ok()?), normal(&figure)))
}

/// Whether there is a placing, after making sure that all bounds give the same.
fn found(sheet: &Graph, figure: &Graph, bounds: [Bounds; 3]) -> bool {
    let [often, seldom, never] = bounds.map(|bounds| least_placing_at(sheet, figure, bounds));
    assert_eq!(often, never, "{sheet:?} {figure:?}");
    assert_eq!(seldom, never, "{sheet:?} {figure:?}");
    never.is_some()
}

/// Rings and chains, whose symmetries matter.
#[test]
fn symmetries_change_no_answer() {
    let mut rng = Rng::new(21);
    let bounds = [0, 16, usize::MAX].map(|costly| Bounds { costly, ..BOUNDS });
    let (mut cases, mut placed) = (0, 0);
    while cases < 4000 {
        let (sheet, figure) = if rng.chance(1, 2) { two_rings(&mut rng) } else { chain_in(&mut rng) };
        let Some((sheet, figure)) = read_both(&text(&sheet), &text(&figure)) else { continue };
        if sheet.atoms.len() <= 14 {
            cases += 1;
            placed += found(&sheet, &figure, bounds) as usize;
        }
    }
    println!("{cases} agree: {placed} placings");
    assert!(cases / 4 < placed && placed < cases * 3 / 4);
}

/// A hard call of a family, read.
fn hard_pair(rng: &mut Rng, family: &str) -> Option<(Graph, Graph)> {
    let family = FAMILIES.iter().position(|f| f.name == family).expect("a family");
    let inputs = hard_case(rng, family).inputs;
    read_both(&inputs[0], &inputs[1])
}

/// Sheets that are the same or nearly, where colours matter.
#[test]
fn colours_change_no_answer() {
    let mut rng = Rng::new(23);
    let bounds = [6, 3, 0].map(|rounds| Bounds { rounds, ..BOUNDS });
    let (mut cases, mut same) = (0, 0);
    while cases < 2000 {
        let family = rng.pick(&["compared", "loops", "bundles", "cycles", "copies"]);
        let Some((sheet, other)) = hard_pair(&mut rng, family) else { continue };
        cases += 1;
        same += found(&sheet, &other, bounds) as usize;
    }
    println!("{cases} agree: {same} are the same");
    assert!(cases / 4 < same && same < cases * 3 / 4);
}

/// Calls of place where ways between contexts matter, and each candidate tried by itself.
#[test]
fn ways_and_single_tries_change_no_answer() {
    let mut rng = Rng::new(22);
    let never = usize::MAX;
    let bounds = [(0, [1, 20]), (32, [200, never]), (never, [never; 2])];
    let bounds = bounds.map(|(crowded, singly)| Bounds { crowded, singly, ..BOUNDS });
    let (mut cases, mut placed) = (0, 0);
    while cases < 3000 {
        let family = rng.pick(&["pieces", "apart", "cut", "regular"]);
        let Some((sheet, figure)) = hard_pair(&mut rng, family) else { continue };
        cases += 1;
        placed += found(&sheet, &figure, bounds) as usize;
    }
    println!("{cases} agree: {placed} placings");
    assert!(cases / 4 < placed && placed < cases * 3 / 4);
}
