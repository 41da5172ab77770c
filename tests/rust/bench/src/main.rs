//! Times the proved library and the plain one on the same inputs in one process, and prints a table. A time is the
//! least mean of nine rounds of calls, fewer where a call takes very long, in microseconds, rounds of the two by turns;
//! a row of the table has the mean over its texts. Fails where a row's ratio is above 1 by more than runs differ by.

use std::hint::black_box;
use std::process::ExitCode;
use std::time::Instant;

use plain::case::{Calls, Case, Task, PLAIN};
use plain::row::{write_row, WIDTH};
use plain::stored::stored;
use plain::tasks::SLIP;
use proved::PROVED;

const ROUNDS: usize = 9;
/// A round goes on for as long as this, nanoseconds.
const ROUND: u128 = 2_000_000;
/// No further round for a text that has taken as long as this, milliseconds.
const ENOUGH: u128 = 1_000;
/// The goal is a ratio of 1; from run to run a ratio differs by up to this much, that of a row with one text most.
const DIFFER: f64 = 0.1;

struct Timed {
    task: Task,
    family: &'static str,
    name: String,
    proved: f64,
    plain: f64,
}

/// The mean of a call over one round, microseconds.
fn round(calls: &Calls, case: &Case, out: &mut [u8]) -> f64 {
    let (start, mut count) = (Instant::now(), 0u32);
    while count == 0 || start.elapsed().as_nanos() < ROUND {
        let _ = black_box(calls.call(case.task, black_box(&case.inputs), out));
        count += 1;
    }
    start.elapsed().as_nanos() as f64 / f64::from(count) / 1000.0
}

/// The least means of the two over some rounds.
fn times(case: &Case) -> (f64, f64) {
    let mut out = vec![0; SLIP];
    let mut least = (f64::INFINITY, f64::INFINITY);
    let start = Instant::now();
    for _ in 0..ROUNDS {
        least.0 = least.0.min(round(&PROVED, case, &mut out));
        least.1 = least.1.min(round(&PLAIN, case, &mut out));
        if start.elapsed().as_millis() > ENOUGH {
            break;
        }
    }
    least
}

/// The slowest text to read and number: 256 rows, 64 symbols of six joints, 192 F rows over 96 joints.
fn full_sheet() -> Vec<u8> {
    let mut rows: Vec<(u8, Vec<u16>)> = Vec::new();
    for s in 0..64 {
        let joints = (0..6).map(|k| (s * 6 + k * 17) % 96 + 1);
        rows.push((b'S', [s + 1, 6].into_iter().chain(joints).collect()));
    }
    for f in 0..192 {
        rows.push((b'F', vec![f % 96 + 1, (f * 5 + 1) % 96 + 1]));
    }
    let mut text = Vec::new();
    for (letter, fields) in rows {
        let mut row = [0; WIDTH];
        write_row(&mut row, letter, &fields);
        text.extend_from_slice(&row);
    }
    text
}

fn all() -> Vec<Timed> {
    let full = Case { task: Task::NormaliseSheet, inputs: vec![full_sheet()], slip: SLIP };
    let mut cases = vec![("full", "256 rows".to_string(), full)];
    for stored in stored() {
        let family = match stored.family() {
            "large" => "large",
            "hard" => "hard",
            _ => "small",
        };
        cases.push((family, stored.name, stored.case));
    }
    let timed = |(family, name, case): (&'static str, String, Case)| {
        let (proved, plain) = times(&case);
        Timed { task: case.task, family, name, proved, plain }
    };
    cases.into_iter().map(timed).collect()
}

fn mean(of: impl Iterator<Item = f64> + Clone) -> f64 {
    of.clone().sum::<f64>() / of.count() as f64
}

fn main() -> ExitCode {
    let timed = all();
    let mut above = Vec::new();
    println!("| Task | Texts | Count | Proved | Plain | Ratio | Slowest proved |");
    println!("|---|---|---|---|---|---|---|");
    for task in Task::ALL {
        for family in ["small", "large", "full"] {
            let some = timed.iter().filter(|t| t.task == task && t.family == family);
            let Some(slowest) = some.clone().max_by(|a, b| a.proved.total_cmp(&b.proved)) else { continue };
            let (proved, plain) = (mean(some.clone().map(|t| t.proved)), mean(some.clone().map(|t| t.plain)));
            println!(
                "| {} | {family} | {} | {proved:.1} | {plain:.1} | {:.2} | {}, {:.1} |",
                task.name(),
                some.count(),
                proved / plain,
                slowest.name,
                slowest.proved
            );
            above.extend((proved / plain > 1.0 + DIFFER).then(|| format!("{} {family}", task.name())));
        }
        for t in timed.iter().filter(|t| t.task == task && t.family == "hard") {
            let Timed { name, proved, plain, .. } = t;
            println!("| {} | {name} | 1 | {proved:.1} | {plain:.1} | {:.2} | |", task.name(), proved / plain);
            above.extend((proved / plain > 1.0 + DIFFER).then(|| format!("{} {name}", task.name())));
        }
    }
    if above.is_empty() {
        return ExitCode::SUCCESS;
    }
    eprintln!("slower than plain: {}", above.join(", "));
    ExitCode::FAILURE
}
