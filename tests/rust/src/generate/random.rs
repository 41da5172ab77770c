//! Random sheets, figures and lists of fillings; those of one source share names and marks.

use super::lines::{line, ported, Lines};
use super::rng::Rng;
use crate::read::{Ports, FIGURE, LIST, SHEET};
use crate::row::{LAST_CONTEXT, LAST_JOINT, LAST_MARK, PORTS};

/// About how large a text becomes: most atoms, joints and marks of a sheet, and most of a figure.
#[derive(Debug, Clone, Copy)]
pub struct Size {
    pub atoms: usize,
    pub joints: usize,
    pub marks: usize,
    pub figure_atoms: usize,
    pub figure_joints: usize,
    /// Most links of an atom.
    pub arity: usize,
    /// Different names.
    pub names: usize,
}

impl Size {
    /// Small enough for plain enumeration.
    pub const TINY: Size =
        Size { atoms: 3, joints: 3, marks: 2, figure_atoms: 2, figure_joints: 4, arity: 3, names: 2 };
    pub const SMALL: Size =
        Size { atoms: 6, joints: 6, marks: 2, figure_atoms: 3, figure_joints: 6, arity: 3, names: 3 };
    pub const MIDDLE: Size =
        Size { atoms: 18, joints: 20, marks: 4, figure_atoms: 6, figure_joints: 12, arity: 4, names: 4 };
    pub const LARGE: Size = Size {
        atoms: SHEET.atoms,
        joints: SHEET.links,
        marks: 8,
        figure_atoms: FIGURE.atoms,
        figure_joints: FIGURE.links,
        arity: PORTS,
        names: 6,
    };

    /// Any of the sizes, small ones most often.
    pub fn any(rng: &mut Rng) -> Size {
        match rng.below(8) {
            0 => Size::TINY,
            1..=4 => Size::SMALL,
            5 | 6 => Size::MIDDLE,
            _ => Size::LARGE,
        }
    }
}

pub struct Source<'a> {
    pub rng: &'a mut Rng,
    pub size: Size,
    names: Vec<u16>,
    marks: Vec<u16>,
}

impl<'a> Source<'a> {
    pub fn new(rng: &'a mut Rng, size: Size) -> Self {
        let names = rng.distinct(size.names, LAST_MARK);
        let marks = if rng.chance(1, 2) { Vec::new() } else { rng.distinct(size.marks, LAST_MARK) };
        Source { rng, size, names, marks }
    }

    fn joints(&mut self, most: usize) -> Vec<u16> {
        let count = self.rng.between(1, most);
        self.rng.distinct(count, LAST_JOINT)
    }

    fn some(&mut self, joints: &[u16], count: usize) -> Vec<u16> {
        (0..count).map(|_| self.rng.pick(joints)).collect()
    }

    fn symbols(&mut self, most: usize, joints: &[u16]) -> Lines {
        let count = self.rng.between(0, most);
        let mut lines = Lines::new();
        for _ in 0..count {
            let arity = self.rng.between(0, self.size.arity);
            let name = self.rng.pick(&self.names);
            lines.push(ported(b'S', name, &self.some(joints, arity)));
        }
        lines
    }

    fn fusions(&mut self, most: usize, joints: &[u16]) -> Lines {
        let count = if self.rng.chance(1, 2) { 0 } else { self.rng.between(1, most) };
        (0..count).map(|_| line(b'F', &self.some(joints, 2))).collect()
    }

    /// Each mark once, now and then a second time.
    fn edges(&mut self, marks: &[u16], joints: &[u16]) -> Lines {
        let mut lines = Lines::new();
        for &mark in marks {
            let times = if self.rng.chance(1, 12) { 2 } else { 1 };
            lines.extend((0..times).map(|_| line(b'E', &[self.rng.pick(joints), mark])));
        }
        lines
    }

    fn shuffled(&mut self, parts: [Lines; 4]) -> Lines {
        let mut lines = parts.concat();
        self.rng.shuffle(&mut lines);
        lines
    }

    pub fn sheet(&mut self) -> Lines {
        let joints = self.joints(self.size.joints);
        let marks = self.marks.clone();
        let symbols = self.symbols(self.size.atoms, &joints);
        let parts = [symbols, self.fusions(3, &joints), self.edges(&marks, &joints), Lines::new()];
        self.shuffled(parts)
    }

    /// A few context numbers with port counts.
    pub fn ports(&mut self) -> Ports {
        let mut ports = [None; LAST_CONTEXT as usize + 1];
        let few = self.rng.between(0, 3);
        for place in ports.iter_mut().skip(1) {
            if self.rng.chance(few, 4) {
                let most = if self.rng.chance(1, 4) { PORTS } else { 3 };
                *place = Some(self.rng.between(0, most) as u8);
            }
        }
        ports
    }

    /// A figure with these contexts: each once, or where `repeat` holds any number of times.
    /// Atoms and marks keep to some of the joints, so that others are on contexts alone.
    pub fn figure(&mut self, ports: &Ports, repeat: bool) -> Lines {
        let joints = self.joints(self.size.figure_joints);
        let bound = &joints[..self.rng.between(1, joints.len())];
        let marks = self.marks.clone();
        let atoms = if self.rng.chance(1, 6) { 0 } else { self.size.figure_atoms };
        let symbols = self.symbols(atoms, bound);
        let contexts = self.contexts(ports, repeat, &joints);
        let parts = [symbols, contexts, self.fusions(2, &joints), self.edges(&marks, bound)];
        self.shuffled(parts)
    }

    fn contexts(&mut self, ports: &Ports, repeat: bool, joints: &[u16]) -> Lines {
        let mut lines = Lines::new();
        for (number, arity) in ports.iter().enumerate() {
            let Some(arity) = *arity else { continue };
            let times = if repeat { self.rng.between(0, 2) } else { 1 };
            for _ in 0..times {
                lines.push(ported(b'B', number as u16, &self.some(joints, arity as usize)));
            }
        }
        lines
    }

    /// A list with a filling for each of these contexts.
    pub fn list(&mut self, ports: &Ports) -> Lines {
        let count = ports.iter().flatten().count().max(1);
        let mut left = LIST.atoms;
        let mut lines = Lines::new();
        for (number, arity) in ports.iter().enumerate() {
            let Some(arity) = *arity else { continue };
            lines.push(line(b'H', &[number as u16, arity as u16]));
            let filling = self.filling(arity, (self.size.atoms / count + 1).min(left));
            left -= filling.iter().filter(|l| l.letter == b'S').count();
            lines.extend(filling);
        }
        lines
    }

    fn filling(&mut self, arity: u8, atoms: usize) -> Lines {
        let joints = self.joints(self.size.joints);
        let marks: Vec<u16> = (1..=arity as u16).collect();
        let symbols = self.symbols(atoms, &joints);
        let parts = [symbols, self.fusions(3, &joints), self.edges(&marks, &joints), Lines::new()];
        self.shuffled(parts)
    }
}
