//! Seeded texts and cases for tests: random, damaged, as large as allowed, and such that belong together.

pub mod alike;
pub mod damage;
pub mod hard;
pub mod limits;
pub mod lines;
pub mod matching;
pub mod pattern;
pub mod random;
pub mod regular;
pub mod rng;
pub mod shapes;

use crate::case::{Case, Task};
use crate::read::Ports;
use crate::tasks::{place, SLIP};
use damage::{damage, nudge, spoil};
use lines::{text, Lines};
use matching::{doubled, filled_figure, matching, normal_sheet, scramble, Matching};
use random::{Size, Source};
pub use rng::Rng;

/// What an input is.
#[derive(Clone, Copy, PartialEq, Eq)]
enum Role {
    Sheet,
    Figure,
    List,
}

fn roles(task: Task) -> &'static [Role] {
    match task {
        Task::NormaliseSheet => &[Role::Sheet],
        Task::NormaliseFigure => &[Role::Figure],
        Task::Compare => &[Role::Sheet, Role::Sheet],
        Task::Fill => &[Role::Figure, Role::List],
        Task::Place => &[Role::Sheet, Role::Figure],
        Task::Claim => &[Role::Sheet, Role::Figure, Role::List],
        Task::Swap => &[Role::Sheet, Role::Figure, Role::Figure],
    }
}

/// A case of a task. Over some thousand cases every number that the task can answer comes up.
pub fn task_case(rng: &mut Rng, task: Task) -> Case {
    let mut lines = inputs(rng, task);
    let chosen = rng.below(lines.len());
    let family = rng.below(12);
    match family {
        0 | 1 => spoil(rng, &mut lines[chosen]),
        2 => nudge(rng, &mut lines[chosen]),
        3 => at_limit(rng, task, &mut lines, chosen),
        _ => {}
    }
    let mut inputs: Vec<Vec<u8>> = lines.iter().map(|lines| text(lines)).collect();
    if family == 4 || family == 5 {
        damage(rng, &mut inputs[chosen]);
    }
    let slip = match rng.below(40) {
        0 => SLIP - 1,
        1 => rng.below(SLIP),
        2 => SLIP + 1,
        3 => SLIP + rng.below(SLIP),
        _ => SLIP,
    };
    Case { task, inputs, slip }
}

/// Inputs of a task that pass in most cases.
fn inputs(rng: &mut Rng, task: Task) -> Vec<Lines> {
    let size = Size::any(rng);
    match (task, rng.below(8)) {
        (Task::Compare | Task::Place | Task::Swap, 0) => return regular(rng, task),
        (Task::Fill | Task::Claim | Task::Swap, 1) => return together(rng, task, doubled),
        (_, 2) => return unrelated(&mut Source::new(rng, size), task),
        _ => {}
    }
    match task {
        Task::Compare => {
            let graph = normal_sheet(&Source::new(rng, size).sheet());
            vec![scramble(rng, &graph), scramble(rng, &graph)]
        }
        Task::Claim if rng.chance(1, 2) => repeated_claim(&mut Source::new(rng, size)),
        Task::NormaliseFigure | Task::Fill => unrelated(&mut Source::new(rng, size), task),
        _ => together(rng, task, |rng| matching(&mut Source::new(rng, size))),
    }
}

/// Inputs that have only names, marks and contexts in common.
fn unrelated(source: &mut Source, task: Task) -> Vec<Lines> {
    let ports = source.ports();
    let pattern_at = if matches!(task, Task::Place | Task::Swap) { 1 } else { usize::MAX };
    let mut lines = Vec::new();
    for (i, role) in roles(task).iter().enumerate() {
        lines.push(match role {
            Role::Sheet => source.sheet(),
            Role::Figure => source.figure(&ports, i != pattern_at),
            Role::List => source.list(&ports),
        });
    }
    lines
}

/// The inputs of a task from texts that belong together.
fn together(rng: &mut Rng, task: Task, make: impl Fn(&mut Rng) -> Matching) -> Vec<Lines> {
    let Matching { sheet, pattern, replacement, list } = make(rng);
    match task {
        Task::NormaliseSheet => vec![sheet],
        Task::NormaliseFigure => vec![replacement],
        Task::Compare => vec![scramble(rng, &normal_sheet(&sheet)), sheet],
        Task::Fill => vec![replacement, list],
        Task::Place => vec![sheet, pattern],
        Task::Claim => vec![sheet, pattern, list],
        Task::Swap => vec![sheet, pattern, replacement],
    }
}

/// A claim that holds, of a figure whose contexts may stand more than once.
fn repeated_claim(source: &mut Source) -> Vec<Lines> {
    let ports = source.ports();
    let (figure, list) = (source.figure(&ports, true), source.list(&ports));
    let graph = filled_figure(&figure, &list).unwrap_or_default();
    vec![scramble(source.rng, &graph), figure, list]
}

/// Sheets with symmetries.
fn regular(rng: &mut Rng, task: Task) -> Vec<Lines> {
    if task == Task::Compare {
        let (a, b) = regular::two_rings(rng);
        return vec![a, b];
    }
    let (sheet, pattern) = match rng.below(3) {
        0 => regular::chain_in(rng),
        1 => regular::hub(rng),
        _ => regular::grid(rng),
    };
    match task {
        Task::Swap => vec![sheet, pattern.clone(), pattern],
        _ => vec![sheet, pattern],
    }
}

/// Puts a text at one of its limits in the place of one input.
fn at_limit(rng: &mut Rng, task: Task, lines: &mut [Lines], chosen: usize) {
    let ports = ports_in(lines);
    lines[chosen] = match roles(task)[chosen] {
        Role::Sheet => limits::sheet(rng),
        Role::Figure => limits::figure(rng, &ports),
        Role::List => limits::list(rng, &ports),
    };
}

/// The port counts that the B and H rows of some texts have.
fn ports_in(texts: &[Lines]) -> Ports {
    let mut ports: Ports = Default::default();
    for line in texts.iter().flatten().filter(|l| b"BH".contains(&l.letter)) {
        if let [number, arity, ..] = line.fields[..] {
            ports[number as usize % ports.len()] = Some(arity as u8);
        }
    }
    ports
}

/// A claim of what place itself hands out; `None` where it hands out nothing.
pub fn claim_of(case: &Case) -> Option<Case> {
    let [sheet, pattern, ..] = &case.inputs[..] else { return None };
    let mut out = vec![0; SLIP];
    let answer = place(sheet, pattern, &mut out);
    if case.task != Task::Place || answer.number != 0 {
        return None;
    }
    out.truncate(answer.bytes);
    Some(Case { task: Task::Claim, inputs: vec![sheet.clone(), pattern.clone(), out], slip: 0 })
}
