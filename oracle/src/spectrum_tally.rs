//! Counts and shows what differs between the Rust's functions on spectra and ours.

use crate::comparison::SHOWN;
use crate::spectrum::{DONE, OUTSIDE, Outcome, Request};
use std::ops::RangeInclusive;
use std::time::Instant;

pub struct Tally {
    name: String,
    cases: u64,
    inside: u64,
    outside: u64,
    differences: u64,
    started: Instant,
}

impl Tally {
    pub fn new(name: &str) -> Self {
        Self {
            name: format!("spectra, {name}"),
            cases: 0,
            inside: 0,
            outside: 0,
            differences: 0,
            started: Instant::now(),
        }
    }

    /// What ours made of a call beside what is right: the number and every array, all NaNs taken as one.
    pub fn compare(&mut self, request: &Request, ours: &Outcome, right: &Outcome) {
        self.cases += 1;
        self.inside += u64::from(right.number == DONE);
        self.outside += u64::from(right.number == OUTSIDE);
        let words = ours.words().into_iter().zip(right.words());
        if let Some((place, (own, rust))) = words.enumerate().find(|(_, (own, rust))| own != rust) {
            self.differences += 1;
            if self.differences <= SHOWN {
                let what = slot(place, request);
                println!("{}: {what}: ours {own:016x}, right {rust:016x}", self.name);
            }
        }
    }

    /// Whether so many of a hundred calls are inside: else their equality tells little.
    pub fn is_fair(&self, percent: &RangeInclusive<u64>) -> bool {
        let inside = 100 * self.inside;
        let fair = percent.start() * self.cases <= inside && inside <= percent.end() * self.cases;
        if !fair {
            println!("{}: not {percent:?} percent are inside", self.name);
        }
        fair
    }

    /// Prints the line, and says whether all were equal.
    pub fn finish(self) -> bool {
        println!(
            "{}: {} cases, {} inside, {} outside, {} differences ({:.1} s)",
            self.name,
            self.cases,
            self.inside,
            self.outside,
            self.differences,
            self.started.elapsed().as_secs_f64()
        );
        self.differences == 0
    }
}

/// The name of a place in the words of an outcome, and the call that it comes from.
fn slot(place: usize, request: &Request) -> String {
    let Request {
        alpha,
        beta,
        stage,
        log_gain,
        first,
        ..
    } = request;
    let [x, y, z] = request.lengths();
    let slot = match place {
        0 => "number".to_string(),
        _ if place <= x => format!("array 0[{}]", place - 1),
        _ if place <= x + y => format!("array 1[{}]", place - 1 - x),
        _ => format!("array 2[{}]", place - 1 - x - y),
    };
    format!(
        "{slot} of lengths {x}, {y}, {z}, alpha {alpha:e}, beta {beta:e}, stage {stage}, log gain {log_gain}, first {first}"
    )
}
