//! The contexts that remain for each sheet atom to which no figure atom goes.

use crate::ends::{join, Classes, Ends};
use crate::network::{atoms_in, ATOMS, CONTEXTS};
use crate::open::{kinds_in, Open};

/// Whether a context remains for each other atom: at a sheet link the other atoms, and the figure links that go there,
/// have their contexts in one class, as figure links that go there or may go there make them. False only where no
/// good placing is left. Each sheet link is looked at once; more seldom pays.
pub fn contexts_remain(ends: &Ends, open: &Open) -> bool {
    let mut remaining = [ends.contexts; ATOMS];
    for s in 0..ends.sheet.links {
        let Some(allowed) = allowed(ends, open, s, &remaining) else {
            return false;
        };
        for x in atoms_in(ends.others_on(s)) {
            remaining[x] &= allowed;
            if remaining[x] == 0 {
                return false;
            }
        }
    }
    true
}

/// The contexts that other atoms at `s` may have, by what remains for all of them; `None` where the figure links that
/// go there can never be linked.
fn allowed(ends: &Ends, open: &Open, s: usize, remaining: &[u8; ATOMS]) -> Option<u8> {
    let classes = classes(ends, open, s);
    if ends.held() >> s & 1 == 1 {
        let here = ends.here[s];
        let class = with_classes(&classes, here & here.wrapping_neg());
        return (here & !class == 0).then_some(class);
    }
    let common = |set, x: usize| set & with_classes(&classes, remaining[x]);
    Some(atoms_in(ends.others_on(s)).fold(ends.contexts, common))
}

/// The classes of contexts at `s`, if a link of each kind that is left and not barred there goes there too.
fn classes(ends: &Ends, open: &Open, s: usize) -> Classes {
    let mut classes = ends.linked[s];
    for (c, class) in classes.iter_mut().enumerate() {
        *class |= 1 << c;
    }
    for kind in kinds_in(open.kinds() & !open.barred(s)) {
        join(&mut classes, kind);
    }
    classes
}

/// All contexts of the classes that some contexts are in.
fn with_classes(classes: &Classes, contexts: u8) -> u8 {
    (0..CONTEXTS).filter(|c| contexts >> c & 1 == 1).fold(0, |set, c| set | classes[c])
}
