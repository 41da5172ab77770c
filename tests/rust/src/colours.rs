//! Colours: numbers of atoms and links that are computed alike in two nets. A placing of one net in another that needs
//! no context keeps them. Unlike atoms or links may have one colour by chance: then less is told apart.

use crate::network::{atoms_in, links_in, Network, ATOMS, LINKS};

/// Rounds in which colours spread from neighbour to neighbour.
pub const ROUNDS: usize = 3;

pub struct Colours {
    pub atoms: [u64; ATOMS],
    pub links: [u64; LINKS],
    /// For each link what its atoms have told it in this round.
    told: [u64; LINKS],
}

/// Two numbers in one.
fn mix(a: u64, b: u64) -> u64 {
    let z = (a ^ b.wrapping_mul(0x9e37_79b9_7f4a_7c15)).wrapping_mul(0xbf58_476d_1ce4_e5b9);
    (z ^ z >> 31).wrapping_mul(0x94d0_49bb_1331_11eb)
}

/// So many rounds in both nets; false where the sums over all differ, so that neither net can be placed in the other.
pub fn spread_both(first: &mut Colours, a: &Network, second: &mut Colours, b: &Network, rounds: usize) -> bool {
    (0..rounds).all(|_| first.spread(a) == second.spread(b))
}

impl Colours {
    /// Of an atom its name, which of its links are equal, and the size of its piece; of a link its marks.
    pub fn new(net: &Network) -> Self {
        let mut colours = Colours { atoms: [0; ATOMS], links: [0; LINKS], told: [0; LINKS] };
        for l in 0..net.links {
            colours.links[l] = u64::from(net.marks[l]);
        }
        let sizes = sizes(net);
        for a in 0..net.atoms {
            let places = net.places(a);
            let first = |l: &u8| places.iter().position(|m| m == l).unwrap_or(0) as u64;
            let pattern = places.iter().fold(1, |pattern, l| pattern << 3 | first(l));
            colours.atoms[a] = mix(mix(u64::from(net.name[a]), pattern), u64::from(sizes[a]));
        }
        colours
    }

    /// An atom takes on the colours of its links, place by place; then a link those of its atoms, as a sum. Returns the
    /// sum over all atoms and links.
    fn spread(&mut self, net: &Network) -> u64 {
        let mut all = 0u64;
        for a in 0..net.atoms {
            let places = net.places(a);
            let colour = places.iter().fold(self.atoms[a], |colour, &l| mix(colour, self.links[l as usize]));
            self.atoms[a] = colour;
            all = all.wrapping_add(mix(colour, 0));
            for (i, &l) in (1..).zip(places) {
                let told = &mut self.told[l as usize];
                *told = told.wrapping_add(mix(colour, i));
            }
        }
        for l in 0..net.links {
            self.links[l] = mix(self.links[l], std::mem::take(&mut self.told[l]));
            all = all.wrapping_add(mix(self.links[l], 0));
        }
        all
    }
}

/// For each atom how many hang together with it by shared links.
fn sizes(net: &Network) -> [u8; ATOMS] {
    let mut sizes = [0; ATOMS];
    let mut rest = net.all();
    while rest != 0 {
        let mut piece = rest & rest.wrapping_neg();
        let mut pending = piece;
        while pending != 0 {
            let a = pending.trailing_zeros() as usize;
            let around = links_in(net.links_of[a]).fold(0, |set, l| set | net.atoms_on[l]);
            pending = pending & (pending - 1) | around & !piece;
            piece |= around;
        }
        rest &= !piece;
        for a in atoms_in(piece) {
            sizes[a] = piece.count_ones() as u8;
        }
    }
    sizes
}
