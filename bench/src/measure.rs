//! How passes are measured.

use std::hint::black_box;
use std::time::{Duration, Instant};

pub const ROUNDS: usize = 31;
/// A stretch is long against the clock's step and short against what else the machine does.
pub const STRETCH: Duration = Duration::from_millis(3);

/// A pass over inputs, and the sum of its results.
pub type Pass<'a> = Box<dyn Fn() -> u64 + 'a>;

/// Best and median, in the unit of the table.
pub struct Times {
    pub best: f64,
    pub median: f64,
}

/// The time of `count` passes.
fn time(pass: &Pass, count: u32) -> Duration {
    let start = Instant::now();
    let mut sum: u64 = 0;
    for _ in 0..count {
        sum = sum.wrapping_add(pass());
    }
    black_box(sum);
    start.elapsed()
}

/// How many passes fill a stretch.
fn calibrate(pass: &Pass) -> u32 {
    let mut count = 1;
    while time(pass, count) < STRETCH {
        count *= 2;
    }
    count
}

/// Every round times each pass once, so that all meet the same machine. `unit` is how many ns of a pass count as one.
pub fn measure(passes: &[Pass], unit: f64) -> Vec<Times> {
    let counts: Vec<u32> = passes.iter().map(calibrate).collect();
    let mut rounds = vec![Vec::new(); passes.len()];
    for _ in 0..ROUNDS {
        for (index, pass) in passes.iter().enumerate() {
            let ns = time(pass, counts[index]).as_nanos() as f64;
            rounds[index].push(ns / unit / f64::from(counts[index]));
        }
    }
    rounds.into_iter().map(summary).collect()
}

fn summary(mut rounds: Vec<f64>) -> Times {
    rounds.sort_by(f64::total_cmp);
    Times {
        best: rounds[0],
        median: rounds[rounds.len() / 2],
    }
}
