//! Graph substitution: every context gives way to the filling of its number.

use crate::graph::{normal, Context, Graph};
use crate::read::{Filling, SHEET};

/// The figure with each context replaced by `filling` of its number, links of its own for each context;
/// mark i of the filling is the context's link i. Marks above the port count do not occur in a list that passed.
pub fn substitute<'a>(figure: &Graph, filling: impl Fn(u16) -> Option<&'a Graph>) -> Graph {
    let mut result = Graph {
        atoms: figure.atoms.clone(),
        contexts: Vec::new(),
        fusions: figure.fusions.clone(),
        marks: figure.marks.clone(),
        links: figure.links,
    };
    for context in &figure.contexts {
        if let Some(graph) = filling(context.number) {
            give_way(&mut result, context, graph);
        }
    }
    result
}

/// Adds a filling's graph with fresh links and fuses its marks with the context's links.
fn give_way(result: &mut Graph, context: &Context, graph: &Graph) {
    let base = result.links as u16;
    result.links += graph.links;
    for atom in &graph.atoms {
        let mut atom = *atom;
        for link in &mut atom.links[..atom.arity as usize] {
            *link += base;
        }
        result.atoms.push(atom);
    }
    for &(a, b) in &graph.fusions {
        result.fusions.push((a + base, b + base));
    }
    for &(mark, link) in &graph.marks {
        if let Some(&port) = context.links().get(mark as usize - 1) {
            result.fusions.push((link + base, port));
        }
    }
}

/// The normal form of a filled figure; `None` where it is over the limits of a sheet.
pub fn filled<'a>(figure: &Graph, filling: impl Fn(u16) -> Option<&'a Graph>) -> Option<Graph> {
    let graph = normal(&substitute(figure, filling));
    (graph.atoms.len() <= SHEET.atoms && graph.links <= SHEET.links).then_some(graph)
}

/// The row of the first context for which the list has no filling of its number and port count.
pub fn first_lacking(figure: &Graph, list: &[Filling]) -> Option<usize> {
    let fits = |c: &Context| list.iter().any(|f| f.number == c.number && f.arity == c.arity);
    figure.contexts.iter().find(|c| !fits(c)).map(|c| c.row)
}

/// The row of the first head whose filling has other marks than 1 to its port count.
pub fn first_differing(list: &[Filling]) -> Option<usize> {
    list.iter().find(|f| !has_ports(&f.graph, f.arity)).map(|f| f.row)
}

fn has_ports(graph: &Graph, arity: u8) -> bool {
    let within = |&(mark, _): &(u16, u16)| mark <= arity as u16;
    let carried = |port: u16| graph.marks.iter().any(|&(mark, _)| mark == port);
    graph.marks.iter().all(within) && (1..=arity as u16).all(carried)
}
