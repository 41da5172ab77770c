//! What the calls took: the slowest with their inputs, and each family.

use std::sync::Arc;
use std::time::Duration;

use plain::case::Case;
use plain::generate::hard::FAMILIES;

const SLOWEST: usize = 10;

pub struct Timed {
    pub seed: u64,
    pub index: usize,
    pub family: usize,
    pub taken: Duration,
    pub case: Arc<Case>,
}

#[derive(Default)]
pub struct Report {
    slowest: Vec<Timed>,
    /// Milliseconds of each call, by family.
    times: [Vec<f32>; FAMILIES.len()],
}

impl Report {
    pub fn add(&mut self, timed: Timed) {
        self.times[timed.family].push(millis(timed.taken) as f32);
        let place = self.slowest.partition_point(|other| other.taken >= timed.taken);
        if place < SLOWEST {
            self.slowest.insert(place, timed);
            self.slowest.truncate(SLOWEST);
        }
    }

    pub fn show(mut self) {
        for timed in self.slowest.iter().rev() {
            let Timed { seed, index, family, taken, case } = timed;
            let title = format!("{:.2} ms, {}, seed {seed}, call {index}", millis(*taken), FAMILIES[*family].name);
            show_case(&title, case);
        }
        println!("milliseconds    calls    mean    99 %  99.9 % 99.99 %    most");
        for (family, times) in FAMILIES.iter().zip(&mut self.times) {
            show_times(family.name, times);
        }
        show_times("all", &mut self.times.concat());
    }
}

fn show_times(name: &str, times: &mut [f32]) {
    if times.is_empty() {
        return;
    }
    times.sort_unstable_by(f32::total_cmp);
    let at = |part: f64| times[((times.len() - 1) as f64 * part) as usize];
    let mean = times.iter().sum::<f32>() / times.len() as f32;
    let [most, parts @ ..] = [1.0, 0.99, 0.999, 0.9999].map(at);
    let parts = parts.map(|part| format!("{part:7.2}")).join(" ");
    println!("  {name:10} {:8} {mean:7.2} {parts} {most:7.2}", times.len());
}

fn millis(taken: Duration) -> f64 {
    taken.as_secs_f64() * 1000.0
}

/// A case whole, so that it can be stored and called again.
pub fn show_case(title: &str, case: &Case) {
    println!("{title}: {}", case.task.name());
    for (k, input) in case.inputs.iter().enumerate() {
        println!("input {}:\n{}", k + 1, String::from_utf8_lossy(input));
    }
}
