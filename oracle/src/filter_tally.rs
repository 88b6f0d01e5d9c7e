//! Counts and shows what differs between the Rust's filters and ours, and counts the finite samples.

use crate::comparison::SHOWN;
use crate::filter::{Outcome, Request};
use crate::spectrum::DONE;
use std::time::Instant;

/// The names of the arrays of taps at stage 0; at another there is d alone.
const TAPS: [&str; 4] = ["d11", "d12", "d22", "d21"];

pub struct Tally {
    name: String,
    calls: u64,
    samples: u64,
    finite: u64,
    differences: u64,
    started: Instant,
}

impl Tally {
    pub fn new(name: &str) -> Self {
        Self {
            name: format!("filters, {name}"),
            calls: 0,
            samples: 0,
            finite: 0,
            differences: 0,
            started: Instant::now(),
        }
    }

    /// What ours made of a call beside what is right: the number and every array, all NaNs taken as one.
    pub fn compare(&mut self, request: &Request, ours: &Outcome, right: &Outcome) {
        self.calls += 1;
        if right.number == DONE {
            let finite = right.arrays.samples.iter().filter(|x| x.is_finite());
            self.finite += finite.count() as u64;
            self.samples += right.arrays.samples.len() as u64;
        }
        let words = ours.words().into_iter().zip(right.words());
        if let Some((place, (own, rust))) = words.enumerate().find(|(_, (own, rust))| own != rust) {
            self.differences += 1;
            if self.differences <= SHOWN {
                let what = slot(place, request);
                println!("{}: {what}: ours {own:016x}, right {rust:016x}", self.name);
            }
        }
    }

    /// Whether at least a fifth of the samples are finite, and a fifth not: else their equality tells little.
    pub fn is_fair(&self) -> bool {
        let fair = self.finite.min(self.samples - self.finite) * 5 >= self.samples;
        if !fair {
            println!(
                "{}: not a fifth of the samples finite and a fifth not",
                self.name
            );
        }
        fair
    }

    /// Prints the line, and says whether all were equal.
    pub fn finish(self) -> bool {
        println!(
            "{}: {} calls, {} samples, {} finite, {} not, {} differences ({:.1} s)",
            self.name,
            self.calls,
            self.samples,
            self.finite,
            self.samples - self.finite,
            self.differences,
            self.started.elapsed().as_secs_f64()
        );
        self.differences == 0
    }
}

/// The name of a place in the words of an outcome, and the call that it comes from.
fn slot(place: usize, request: &Request) -> String {
    let Request { alpha, volume, .. } = request;
    let stage = request.filter.stage();
    let arrays = &request.arrays;
    let (nmcp, samples) = (arrays.coefficients.len(), arrays.samples.len());
    let slot = match place {
        0 => "number".to_string(),
        _ => entry(place - 1, request),
    };
    format!(
        "{slot} of {samples} samples, nmcp {nmcp}, stage {stage}, alpha {alpha:e}, volume {volume:e}"
    )
}

/// The name of a place in the arrays, one after the other.
fn entry(mut place: usize, request: &Request) -> String {
    let taps: &[&str] = match request.arrays.taps.len() {
        1 => &["d"],
        _ => &TAPS,
    };
    let names = ["sample", "coefficient", "increment"].into_iter();
    for (name, array) in names.chain(taps.iter().copied()).zip(request.arrays.all()) {
        if place < array.len() {
            return format!("{name}[{place}]");
        }
        place -= array.len();
    }
    unreachable!("no entry so far out")
}
