//! The proved library on the stored cases: the numbers that the programs print, the rows, and the time, by itself and
//! beside the plain implementation.

use std::time::Instant;

use plain::case::{Calls, Task, PLAIN};
use plain::stored::{printed, stored, Stored};
use proved::PROVED;

/// Microseconds: the most that a hard case may take, and the most for the mean of a task's large ones.
const HARD: f64 = 50_000.0;
const LARGE: f64 = 1_000.0;
/// The most times as long as the plain implementation that a task may take on its small and large cases. Tests run
/// beside each other, so this is no measurement; the benchmark asks for 1.
const BESIDE: f64 = 1.5;
/// How often the two are called by turns for that.
const TURNS: usize = 45;
/// At how many places of the stack.
const PLACES: usize = 32;

/// One call, microseconds.
fn once(calls: &Calls, stored: &Stored) -> f64 {
    let start = Instant::now();
    std::hint::black_box(printed(calls, &stored.case));
    start.elapsed().as_nanos() as f64 / 1000.0
}

/// The least time of a call in nine.
fn time(calls: &Calls, stored: &Stored) -> f64 {
    (0..9).map(|_| once(calls, stored)).fold(f64::INFINITY, f64::min)
}

/// What the call gives further down the stack, by so many frames.
#[inline(never)]
fn deeper<T>(frames: usize, call: &dyn Fn() -> T) -> T {
    let frame = std::hint::black_box([frames; 3]);
    if frames == 0 {
        call()
    } else {
        std::hint::black_box((deeper(frame[0] - 1, call), frame)).0
    }
}

/// The least times of the proved library and of the plain one, called by turns, so that a slow moment is one of both.
/// Where the stack lies makes either of them up to a third slower, so it is the mean over places.
fn times(stored: &Stored) -> (f64, f64) {
    let turn = |_| (once(&PROVED, stored), once(&PLAIN, stored));
    let least = || {
        (0..TURNS).map(turn).fold((f64::INFINITY, f64::INFINITY), |least, now| (least.0.min(now.0), least.1.min(now.1)))
    };
    (0..PLACES).map(|place| deeper(place, &least)).fold((0.0, 0.0), |sum, least| (sum.0 + least.0, sum.1 + least.1))
}

#[test]
fn every_stored_case() {
    for stored in stored() {
        assert_eq!(printed(&PROVED, &stored.case), stored.printed, "{} {}", stored.case.task.name(), stored.name);
    }
}

#[test]
fn hard_cases_answer_at_once() {
    for stored in stored().iter().filter(|stored| stored.family() == "hard") {
        let taken = time(&PROVED, stored);
        assert!(taken < HARD, "{}: {taken} microseconds", stored.name);
    }
}

#[test]
fn large_cases_answer_at_once() {
    let stored = stored();
    for task in Task::ALL {
        let of_task = stored.iter().filter(|stored| stored.case.task == task && stored.family() == "large");
        let times: Vec<f64> = of_task.map(|stored| time(&PROVED, stored)).collect();
        let mean = times.iter().sum::<f64>() / times.len() as f64;
        assert!(mean < LARGE, "{}: {mean} microseconds in the mean", task.name());
    }
}

#[test]
fn no_task_is_slow_beside_plain() {
    let stored = stored();
    for task in Task::ALL {
        let of_task = stored.iter().filter(|stored| stored.case.task == task && stored.family() != "hard");
        let (proved, plain) = of_task.map(times).fold((0.0, 0.0), |sum, least| (sum.0 + least.0, sum.1 + least.1));
        let ratio = proved / plain;
        assert!(ratio < BESIDE, "{}: {ratio} times as long as plain", task.name());
    }
}
