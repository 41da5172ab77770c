//! Placings and the fillings that they choose.

use crate::graph::{normal, Context, Graph, Writer};

/// Where a figure goes in a sheet; atoms and links are counted from 0.
#[derive(Debug, Clone, PartialEq, Eq)]
pub struct Placing {
    /// The sheet atom of each figure atom.
    pub atoms: Vec<u8>,
    /// The sheet link of each figure link, or none.
    pub links: Vec<Option<u8>>,
    /// The context number of each sheet atom; 0 where a figure atom goes.
    pub contexts: Vec<u8>,
}

/// The contexts of a figure in the order of their numbers.
fn ascending(figure: &Graph) -> Vec<&Context> {
    let mut contexts: Vec<&Context> = figure.contexts.iter().collect();
    contexts.sort_unstable_by_key(|c| c.number);
    contexts
}

/// The filling of one context as a normal graph: its atoms with their links, port i as mark i where it goes.
/// A port that goes to none has a link of its own, one for each figure link.
fn filling(sheet: &Graph, placing: &Placing, context: &Context) -> Graph {
    let given = |&(_, &c): &(_, &u8)| c as u16 == context.number;
    let atoms = sheet.atoms.iter().zip(&placing.contexts).filter(given).map(|(atom, _)| *atom).collect();
    let end = |link: u16| match placing.links[link as usize] {
        Some(to) => to as u16,
        None => sheet.links as u16 + link,
    };
    normal(&Graph {
        atoms,
        contexts: Vec::new(),
        fusions: Vec::new(),
        marks: (1..).zip(context.links()).map(|(port, &link)| (port, end(link))).collect(),
        links: sheet.links + placing.links.len(),
    })
}

/// The fillings in the order of the context numbers: number, port count and normal graph of each.
pub fn fillings(sheet: &Graph, figure: &Graph, placing: &Placing) -> Vec<(u16, u16, Graph)> {
    let one = |c: &Context| (c.number, c.arity as u16, filling(sheet, placing, c));
    ascending(figure).into_iter().map(one).collect()
}

/// Writes a list of fillings, a head before each.
pub fn write_fillings(writer: &mut Writer, fillings: &[(u16, u16, Graph)]) {
    for (number, arity, graph) in fillings {
        writer.row(b'H', &[*number, *arity]);
        writer.graph(graph);
    }
}
