//! The differential test: the proved library and the plain one on the same cases, number, input, row, bytes, yes
//! or no, and every byte of the slip.
//!
//!     differ [COUNT [SEED]]
//!
//! COUNT cases of each task with a fixed seed, which must reach every number that the task can answer, and as many
//! with a fresh seed, which is printed; with a SEED only those of that seed.

use std::time::{SystemTime, UNIX_EPOCH};

use plain::case::{numbers_of, Case, Outcome, Task, PLAIN};
use plain::generate::{task_case, Rng};
use proved::PROVED;

const FIXED: u64 = 20_240_001;
const COUNT: usize = 3000;
const NUMBERS: usize = 13;

/// The cases of one task: how often each number was answered, or the first case on which the two differ.
fn compare_task(task: Task, seed: u64, count: usize) -> Result<[usize; NUMBERS], Box<(usize, Case)>> {
    let mut rng = Rng::new(seed ^ ((task as u64 + 1) << 56));
    let mut reached = [0; NUMBERS];
    for index in 0..count {
        let case = task_case(&mut rng, task);
        let plain = PLAIN.run(&case);
        if PROVED.run(&case) != plain {
            return Err(Box::new((index, case)));
        }
        reached[plain.number as usize] += 1;
    }
    Ok(reached)
}

fn show(who: &str, outcome: &Outcome) {
    let Outcome { number, input, row, bytes, yes, out } = outcome;
    println!("{who}: number {number}, input {input}, row {row}, bytes {bytes}, yes {yes}");
    println!("{}", String::from_utf8_lossy(&out[..(*bytes).min(out.len())]));
}

fn show_difference(seed: u64, index: usize, case: &Case) {
    println!("DIFFERENT: {}, seed {seed}, case {index}, slip {}", case.task.name(), case.slip);
    for (k, input) in case.inputs.iter().enumerate() {
        println!("input {}:\n{}", k + 1, String::from_utf8_lossy(input));
    }
    let (plain, proved) = (PLAIN.run(case), PROVED.run(case));
    show("plain", &plain);
    show("proved", &proved);
    if let Some(at) = (0..plain.out.len()).find(|&at| plain.out[at] != proved.out[at]) {
        println!("the slips differ first at byte {at}");
    }
}

/// One seed over every task. Whether no two outcomes differ and, where asked, every number was reached.
fn run_seed(seed: u64, count: usize, all_numbers: bool) -> bool {
    let mut good = true;
    for task in Task::ALL {
        match compare_task(task, seed, count) {
            Err(found) => {
                show_difference(seed, found.0, &found.1);
                good = false;
            }
            Ok(reached) => {
                let possible = numbers_of(task);
                let counts: Vec<String> = possible.iter().map(|&n| format!("{n}:{}", reached[n as usize])).collect();
                println!("  {:16} {count} alike; answered {}", task.name(), counts.join(" "));
                for &n in possible.iter().filter(|&&n| all_numbers && reached[n as usize] == 0) {
                    println!("NOT REACHED: {}, number {n}", task.name());
                    good = false;
                }
            }
        }
    }
    good
}

fn main() {
    let mut args = std::env::args().skip(1);
    let count = args.next().map_or(COUNT, |word| word.parse().expect("COUNT is a number"));
    let given: Option<u64> = args.next().map(|word| word.parse().expect("SEED is a number"));
    let mut good = true;
    if let Some(seed) = given {
        println!("seed {seed}");
        good &= run_seed(seed, count, false);
    } else {
        let fresh = SystemTime::now().duration_since(UNIX_EPOCH).map_or(1, |t| t.as_nanos() as u64);
        println!("seed {FIXED}, fixed");
        good &= run_seed(FIXED, count, true);
        println!("seed {fresh}, fresh");
        good &= run_seed(fresh, count, false);
    }
    std::process::exit(i32::from(!good));
}
