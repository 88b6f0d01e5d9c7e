//! Counts and shows what differs between the Rust's excitation and ours.

use crate::comparison::{SHOWN, one_nan};
use crate::stretches::{Outcome, State};
use std::time::Instant;

const SLOTS: [&str; 6] = ["pitch", "counter", "increment", "end pitch", "next", "used"];

pub struct Tally {
    name: &'static str,
    samples: u64,
    states: u64,
    differences: u64,
    started: Instant,
}

impl Tally {
    pub fn new(name: &'static str) -> Self {
        Self {
            name,
            samples: 0,
            states: 0,
            differences: 0,
            started: Instant::now(),
        }
    }

    /// The samples of a stretch, and the states after it.
    pub fn outcome(&mut self, ours: &Outcome, rusts: &Outcome) {
        let what = || format!("samples made of {}", rusts.made);
        self.word(what, ours.made as u64, rusts.made as u64);
        for (index, (own, rust)) in ours.samples.iter().zip(&rusts.samples).enumerate() {
            let what = || {
                let nlpf = rusts.state.line.len();
                format!("sample {index} of {} with nlpf {nlpf}", rusts.made)
            };
            self.word(what, one_nan(own.to_bits()), one_nan(rust.to_bits()));
            self.samples += 1;
        }
        self.state(
            &format!("a stretch of {}", rusts.made),
            &ours.state,
            &rusts.state,
        );
    }

    pub fn state(&mut self, after: &str, ours: &State, rusts: &State) {
        let words = ours.words().into_iter().zip(rusts.words());
        for (place, (own, rust)) in words.enumerate() {
            let what = || {
                format!(
                    "{} after {after} with nlpf {}",
                    slot(place),
                    rusts.line.len()
                )
            };
            self.word(what, own, rust);
        }
        self.states += 1;
    }

    fn word(&mut self, what: impl Fn() -> String, own: u64, rust: u64) {
        if own != rust {
            self.differences += 1;
            if self.differences <= SHOWN {
                println!(
                    "{}: {}: ours {own:016x}, Rust {rust:016x}",
                    self.name,
                    what()
                );
            }
        }
    }

    /// Prints the line, and says whether all were equal.
    pub fn finish(self) -> bool {
        println!(
            "{}: {} samples, {} states, {} differences ({:.1} s)",
            self.name,
            self.samples,
            self.states,
            self.differences,
            self.started.elapsed().as_secs_f64()
        );
        self.differences == 0
    }
}

/// The name of a place in the words of a state.
fn slot(place: usize) -> String {
    match place {
        0..6 => SLOTS[place].to_string(),
        6..70 => format!("queue[{}]", place - 6),
        _ => format!("line[{}]", place - 70),
    }
}
