//! Looks for slow answers of the proved library, over calls that are made to be hard.
//!
//!     slow [COUNT] [--seed SEED] [--seconds N] [--family NAME]
//!
//! COUNT calls of a fixed seed and as many of a fresh one, which is printed; with a SEED only calls of that seed; with
//! N seconds, calls of fresh seeds for so long; with a NAME only calls of that family. Prints the ten slowest calls with
//! their inputs and how long each family takes. Fails where a call of the fixed seed takes over 500 ms or another one
//! over 5 s, or where a quick answer is not the plain implementation's.

mod report;
mod watch;

use std::sync::Arc;
use std::time::{Duration, Instant, SystemTime, UNIX_EPOCH};

use plain::case::{Calls, Case, Outcome, PLAIN};
use plain::generate::hard::{any_family, hard_case, FAMILIES};
use plain::generate::Rng;
use proved::PROVED;
use report::{show_case, Report, Timed};
use watch::Watch;

const FIXED: u64 = 20_260_020;
const COUNT: usize = 11_000;
/// The longest that a call of the fixed seed may take, and one of another.
const FIXED_LIMIT: Duration = Duration::from_millis(500);
const FRESH_LIMIT: Duration = Duration::from_secs(5);
/// An answer that took no longer is held to the plain implementation's, which is then quick too.
const QUICK: Duration = Duration::from_millis(5);

/// Runs hard calls and keeps what they took.
struct Run {
    /// The only family to take calls from, if one is given.
    family: Option<usize>,
    watch: Watch,
    report: Report,
    good: bool,
}

impl Run {
    /// Calls of one seed, until so many are done or the time is over.
    fn seed(&mut self, seed: u64, count: usize, limit: Duration, end: Option<Instant>) {
        let mut rng = Rng::new(seed);
        for index in 0..count {
            if end.is_some_and(|end| Instant::now() >= end) {
                return;
            }
            let family = self.family.unwrap_or_else(|| any_family(&mut rng));
            let case = Arc::new(hard_case(&mut rng, family));
            let taken = self.call(&case, limit);
            self.good &= taken <= limit;
            self.report.add(Timed { seed, index, family, taken, case });
        }
    }

    /// How long the call of a case takes; one that seems slow is made twice, since the machine may have been busy.
    fn call(&mut self, case: &Arc<Case>, limit: Duration) -> Duration {
        let (mut taken, answer) = self.timed(&PROVED, case, limit);
        if taken > limit / 2 {
            taken = taken.min(self.timed(&PROVED, case, limit).0);
        }
        if taken < QUICK && self.timed(&PLAIN, case, limit).1 != answer {
            show_case("NOT THE PLAIN ANSWER", case);
            self.good = false;
        }
        taken
    }

    fn timed(&self, calls: &Calls, case: &Arc<Case>, limit: Duration) -> (Duration, Outcome) {
        self.watch.begin(case, limit);
        let start = Instant::now();
        let outcome = calls.run(case);
        let taken = start.elapsed();
        self.watch.end();
        (taken, outcome)
    }
}

fn fresh_seed() -> u64 {
    SystemTime::now().duration_since(UNIX_EPOCH).map_or(1, |t| t.as_nanos() as u64)
}

#[derive(Default)]
struct Arguments {
    count: Option<u64>,
    seed: Option<u64>,
    seconds: Option<u64>,
    family: Option<usize>,
}

fn arguments() -> Arguments {
    let mut arguments = Arguments::default();
    let mut words = std::env::args().skip(1);
    let number = |word: Option<String>| Some(word.and_then(|word| word.parse().ok()).expect("a number"));
    while let Some(word) = words.next() {
        match word.as_str() {
            "--seed" => arguments.seed = number(words.next()),
            "--seconds" => arguments.seconds = number(words.next()),
            "--family" => {
                let name = words.next().expect("a family");
                arguments.family = Some(FAMILIES.iter().position(|family| family.name == name).expect("a family"));
            }
            _ => arguments.count = number(Some(word)),
        }
    }
    arguments
}

fn main() {
    let Arguments { count, seed, seconds, family } = arguments();
    let count = count.map_or(COUNT, |count| count as usize);
    let mut run = Run { family, watch: Watch::start(), report: Report::default(), good: true };
    if let Some(seconds) = seconds {
        let end = Instant::now() + Duration::from_secs(seconds);
        while Instant::now() < end {
            run.seed(fresh_seed(), count, FRESH_LIMIT, Some(end));
        }
    } else if let Some(seed) = seed {
        run.seed(seed, count, FRESH_LIMIT, None);
    } else {
        let fresh = fresh_seed();
        println!("{count} hard calls of seed {FIXED}, fixed, and {count} of seed {fresh}, fresh");
        run.seed(FIXED, count, FIXED_LIMIT, None);
        run.seed(fresh, count, FRESH_LIMIT, None);
    }
    run.report.show();
    if !run.good {
        println!("TOO SLOW, or not the plain answer: see above");
    }
    std::process::exit(i32::from(!run.good));
}
