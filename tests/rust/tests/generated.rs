//! Generated cases: every number that a task can answer comes up and no other, refusals leave the slip as it was,
//! and the tasks agree with each other.

use std::collections::BTreeMap;
use std::time::Instant;

use plain::case::{numbers_of, old_slip, run_plain, Case, Outcome, Task};
use plain::filling_of;
use plain::generate::{claim_of, task_case, Rng};
use plain::read::read_list;

const CASES: usize = 4000;

fn run(task: Task, seed: u64, mut look: impl FnMut(&Case, &Outcome)) {
    let mut rng = Rng::new(seed);
    for _ in 0..CASES {
        let case = task_case(&mut rng, task);
        look(&case, &run_plain(&case));
    }
}

#[test]
fn every_number_comes_up_and_only_counted_bytes_change() {
    for task in Task::ALL {
        let mut counts: BTreeMap<u16, usize> = BTreeMap::new();
        let start = Instant::now();
        run(task, 1, |case, outcome| {
            *counts.entry(outcome.number).or_default() += 1;
            let old = old_slip(outcome.out.len());
            assert_eq!(outcome.out[outcome.bytes..], old[outcome.bytes..], "{case:?}");
            assert!(outcome.number == 0 || (outcome.bytes == 0 && !outcome.yes), "{case:?}");
            assert!(outcome.input as usize <= case.inputs.len(), "{case:?}");
        });
        println!("{:18} {:?} a case, {counts:?}", task.name(), start.elapsed() / CASES as u32);
        let reached: Vec<u16> = counts.keys().copied().collect();
        assert_eq!(reached, numbers_of(task), "{}", task.name());
    }
}

/// What place hands out passes as a list and makes the sheet; filling a replacement from it is swapping.
#[test]
fn place_claim_fill_and_swap_agree() {
    let (mut placed, mut swapped) = (0, 0);
    run(Task::Place, 4, |case, _| {
        if let Some(claim) = claim_of(case) {
            placed += 1;
            assert!(run_plain(&claim).yes, "{case:?}");
        }
    });
    run(Task::Swap, 5, |case, outcome| {
        let pair = Case { task: Task::Place, inputs: case.inputs[..2].to_vec(), slip: 4096 };
        let list = run_plain(&pair);
        if list.number == 0 && outcome.number == 0 {
            swapped += 1;
            let inputs = vec![case.inputs[2].clone(), list.out[..list.bytes].to_vec()];
            let filled = run_plain(&Case { task: Task::Fill, inputs, slip: case.slip });
            assert_eq!(&filled, outcome, "{case:?}");
        }
    });
    println!("{placed} placed, {swapped} swapped");
    assert!(placed > CASES / 4 && swapped > CASES / 8);
}

/// A normal text is read back to itself and is the same sheet; compare does not mind the order of its inputs.
#[test]
fn normal_texts_are_the_same_sheets() {
    run(Task::NormaliseSheet, 6, |case, outcome| {
        if outcome.number == 0 {
            let text = outcome.out[..outcome.bytes].to_vec();
            let again = run_plain(&Case { task: Task::NormaliseSheet, inputs: vec![text.clone()], slip: case.slip });
            assert_eq!(&again, outcome);
            let same = Case { task: Task::Compare, inputs: vec![case.inputs[0].clone(), text], slip: 0 };
            assert!(run_plain(&same).yes);
        }
    });
    let mut same = 0;
    run(Task::Compare, 7, |case, outcome| {
        let turned = Case { inputs: case.inputs.iter().rev().cloned().collect(), ..case.clone() };
        assert_eq!(run_plain(&turned).yes, outcome.yes, "{case:?}");
        same += outcome.yes as usize;
    });
    assert!(CASES / 4 < same && same < CASES);
}

/// The parts of a list that passed are the whole list; those of a refused one are empty.
#[test]
fn fillings_are_parts_of_the_list() {
    run(Task::Fill, 8, |case, _| {
        let list = case.inputs[1].as_slice();
        let parts: Vec<&[u8]> = (0..=5).map(|number| filling_of(list, number)).collect();
        let whole = if read_list(list).is_ok() { list } else { &[] };
        assert_eq!(parts.concat(), whole);
        for (number, part) in parts.iter().enumerate().filter(|(_, part)| !part.is_empty()) {
            assert_eq!(part[..5], format!("H{number:4}").into_bytes());
        }
    });
}
