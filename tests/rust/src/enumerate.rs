//! The least good placing by plain enumeration, for tests on small inputs: every placing in order, each tested by
//! the four conditions.

use crate::graph::{Context, Graph};
use crate::placing::Placing;

/// The first good placing in the order: where atoms go, where links go (none last), the contexts of the other atoms.
/// A placing that fails the first three conditions is not tried with every choice of contexts,
/// since those conditions do not speak of them.
pub fn least_placing(sheet: &Graph, figure: &Graph) -> Option<Placing> {
    let mut numbers: Vec<u8> = figure.contexts.iter().map(|c| c.number as u8).collect();
    numbers.sort_unstable();
    let mut found = None;
    every(figure.atoms.len(), sheet.atoms.len(), |atoms| {
        let others = others(sheet, atoms);
        let named = |(a, &x): (usize, &usize)| figure.atoms[a].name == sheet.atoms[x].name;
        if others.len() + atoms.len() != sheet.atoms.len() || !atoms.iter().enumerate().all(named) {
            return false;
        }
        every(figure.links, sheet.links + 1, |links| {
            let mut placing = placing(sheet, atoms, links);
            let good = crosses(sheet, figure, &placing) && marked(sheet, figure, &placing) && linked(figure, &placing);
            good && every(others.len(), numbers.len(), |choice| {
                for (&x, &c) in others.iter().zip(choice) {
                    placing.contexts[x] = numbers[c];
                }
                let good = given(sheet, figure, &placing);
                if good {
                    found = Some(placing.clone());
                }
                good
            })
        })
    });
    found
}

/// Whether a placing is good.
pub fn is_good(sheet: &Graph, figure: &Graph, placing: &Placing) -> bool {
    shaped(sheet, figure, placing)
        && crosses(sheet, figure, placing)
        && marked(sheet, figure, placing)
        && linked(figure, placing)
        && given(sheet, figure, placing)
}

/// A context of the figure for each sheet atom to which no figure atom goes, and for no other.
fn shaped(sheet: &Graph, figure: &Graph, placing: &Placing) -> bool {
    let known = |number: u8| figure.contexts.iter().any(|c| c.number == number as u16);
    let used = |x: usize| placing.atoms.contains(&(x as u8));
    let right = |(x, &number): (usize, &u8)| if used(x) { number == 0 } else { known(number) };
    placing.contexts.len() == sheet.atoms.len() && placing.contexts.iter().enumerate().all(right)
}

/// Tries all sequences of `length` numbers below `base` in order, until one is taken.
fn every(length: usize, base: usize, mut take: impl FnMut(&[usize]) -> bool) -> bool {
    let mut digits = vec![0; length];
    if length > 0 && base == 0 {
        return false;
    }
    loop {
        if take(&digits) {
            return true;
        }
        let Some(last) = digits.iter().rposition(|&d| d + 1 < base) else {
            return false;
        };
        digits[last] += 1;
        digits[last + 1..].fill(0);
    }
}

/// The sheet atoms to which no figure atom goes.
fn others(sheet: &Graph, atoms: &[usize]) -> Vec<usize> {
    (0..sheet.atoms.len()).filter(|x| !atoms.contains(x)).collect()
}

/// The placing with these atoms and links (the number of sheet links is none) and no contexts yet.
fn placing(sheet: &Graph, atoms: &[usize], links: &[usize]) -> Placing {
    Placing {
        atoms: atoms.iter().map(|&x| x as u8).collect(),
        links: links.iter().map(|&s| (s < sheet.links).then_some(s as u8)).collect(),
        contexts: vec![0; sheet.atoms.len()],
    }
}

fn goes(placing: &Placing, link: u16) -> Option<u16> {
    placing.links[link as usize].map(u16::from)
}

/// First condition: different sheet atoms, names and port counts agree, the links go across place by place.
fn crosses(sheet: &Graph, figure: &Graph, placing: &Placing) -> bool {
    let distinct = (0..placing.atoms.len()).all(|i| !placing.atoms[..i].contains(&placing.atoms[i]));
    distinct
        && figure.atoms.iter().zip(&placing.atoms).all(|(atom, &x)| {
            let image = &sheet.atoms[x as usize];
            let mut pairs = atom.links().iter().zip(image.links());
            atom.name == image.name && atom.arity == image.arity && pairs.all(|(&l, &s)| goes(placing, l) == Some(s))
        })
}

/// Second condition: the same marks, and a marked link goes to the sheet link with that mark.
fn marked(sheet: &Graph, figure: &Graph, placing: &Placing) -> bool {
    let has = |graph: &Graph, mark: u16| graph.marks.iter().any(|m| m.0 == mark);
    sheet.marks.iter().all(|&(mark, _)| has(figure, mark))
        && figure.marks.iter().all(|&(mark, _)| has(sheet, mark))
        && figure
            .marks
            .iter()
            .all(|&(mark, l)| sheet.marks.iter().all(|&(m, s)| m != mark || goes(placing, l) == Some(s)))
}

/// Third condition: two figure links at one sheet link are linked by steps, each between two links of one context,
/// all going there.
fn linked(figure: &Graph, placing: &Placing) -> bool {
    let links = 0..figure.links as u16;
    links.clone().all(|l| {
        let there = reached(figure, placing, l);
        let same = |m: &u16| goes(placing, l).is_some() && goes(placing, *m) == goes(placing, l);
        links.clone().filter(same).all(|m| there.contains(&m))
    })
}

/// The links that steps lead to from `first`.
fn reached(figure: &Graph, placing: &Placing, first: u16) -> Vec<u16> {
    let mut there = vec![first];
    let mut at = 0;
    while at < there.len() {
        let from = there[at];
        for context in figure.contexts.iter().filter(|c| c.links().contains(&from)) {
            for &to in context.links() {
                if goes(placing, to) == goes(placing, first) && !there.contains(&to) {
                    there.push(to);
                }
            }
        }
        at += 1;
    }
    there
}

/// Fourth condition: a link of an atom given to a context is where one of that context's links goes,
/// or no figure link goes there, it has no mark, and it touches only atoms of that context.
fn given(sheet: &Graph, figure: &Graph, placing: &Placing) -> bool {
    let port = |c: &Context, s: u16| c.links().iter().any(|&l| goes(placing, l) == Some(s));
    sheet.atoms.iter().zip(&placing.contexts).filter(|(_, &number)| number != 0).all(|(atom, &number)| {
        let own = figure.contexts.iter().find(|c| c.number == number as u16);
        atom.links().iter().all(|&s| own.is_some_and(|c| port(c, s)) || inner(sheet, placing, s, number))
    })
}

fn inner(sheet: &Graph, placing: &Placing, s: u16, number: u8) -> bool {
    let mut touching = sheet.atoms.iter().zip(&placing.contexts).filter(|(atom, _)| atom.links().contains(&s));
    !placing.links.contains(&Some(s as u8))
        && sheet.marks.iter().all(|m| m.1 != s)
        && touching.all(|(_, &given)| given == number)
}
