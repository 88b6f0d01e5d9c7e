//! Counts and shows what differs between document 02's sound files and ours, and counts calls by what they answer.

use crate::comparison::SHOWN;
use crate::sound::{Heard, Writing, Written};
use crate::sound_writing::refusals;
use std::collections::BTreeMap;
use std::time::Instant;

pub struct Tally {
    name: String,
    /// What is counted as an input, in the plural.
    unit: &'static str,
    inputs: u64,
    held: u64,
    /// The calls by kind and by every number that applies, the first of which is answered.
    calls: BTreeMap<(&'static str, String), u64>,
    differences: u64,
    started: Instant,
}

impl Tally {
    pub fn new(name: &str, unit: &'static str) -> Self {
        Self {
            name: format!("sounds, {name}"),
            unit,
            inputs: 0,
            held: 0,
            calls: BTreeMap::new(),
            differences: 0,
            started: Instant::now(),
        }
    }

    pub fn inputs(&mut self, count: usize) {
        self.inputs += count as u64;
    }

    /// What ours wrote beside what is right: the number, the bytes reported, the samples held back, the whole buffer.
    pub fn written(&mut self, writing: &Writing, own: &Written, right: &Written) {
        let numbers = joined(&refusals(writing));
        self.count(writing.what.name(), numbers);
        self.held += right.held as u64;
        self.differ_written(|| shown(writing), writing, own, right);
    }

    /// Header, parts and pad of ours, joined, beside the file that ours wrote at once.
    pub fn joined(&mut self, writing: &Writing, own: &Written, right: &Written) {
        let what = || format!("in parts, {}", shown(writing));
        self.differ_written(what, writing, own, right);
    }

    /// What ours read beside what is right: the number, bits, rate, count, the whole buffer.
    pub fn heard(&mut self, what: impl Fn() -> String, own: &Heard, right: &Heard) {
        self.count("read", right.number.to_string());
        if own != right {
            let room = right.buffer.len();
            let what = || format!("{}, room for {room}", what());
            self.differ(what, own.numbers(), right.numbers(), heard_slot);
        }
    }

    fn differ_written(
        &mut self,
        what: impl Fn() -> String,
        writing: &Writing,
        own: &Written,
        right: &Written,
    ) {
        if own != right {
            let slot = |place| written_slot(place, writing);
            self.differ(what, own.numbers(), right.numbers(), slot);
        }
    }

    fn count(&mut self, kind: &'static str, numbers: String) {
        *self.calls.entry((kind, numbers)).or_default() += 1;
    }

    /// Counts a difference and shows it: the first one of two lists of numbers.
    fn differ(
        &mut self,
        what: impl Fn() -> String,
        own: impl Iterator<Item = i128>,
        right: impl Iterator<Item = i128>,
        slot: impl Fn(usize) -> String,
    ) {
        self.differences += 1;
        let mut numbers = own.zip(right).enumerate();
        let first = numbers.find(|(_, (own, right))| own != right);
        if let (Some((place, (own, right))), ..=SHOWN) = (first, self.differences) {
            let (name, what, slot) = (&self.name, what(), slot(place));
            println!("{name}: {what}: {slot}: ours {own}, right {right}");
        }
    }

    /// Whether every one of these calls came up so often with these numbers; says which did not.
    pub fn has_met(&self, kinds: &[(&'static str, &[&str])], least: u64) -> bool {
        let mut met = true;
        for &(kind, all) in kinds {
            for &numbers in all {
                let key = (kind, numbers.to_string());
                let count = self.calls.get(&key).copied().unwrap_or(0);
                if count < least {
                    let name = &self.name;
                    println!("{name}: {kind} {numbers} came up {count} times, not {least}");
                    met = false;
                }
            }
        }
        met
    }

    /// Prints the lines, and says whether all were equal.
    pub fn finish(self) -> bool {
        let held = match self.held {
            0 => String::new(),
            held => format!("{held} samples held back, "),
        };
        println!(
            "{}: {} {}, {}{} differences ({:.1} s)",
            self.name,
            self.inputs,
            self.unit,
            held,
            self.differences,
            self.started.elapsed().as_secs_f64()
        );
        let calls = self.calls.iter();
        let counts: Vec<String> = calls
            .map(|((kind, numbers), count)| format!("{kind} {numbers}: {count}"))
            .collect();
        println!("{}, calls by number: {}", self.name, counts.join(", "));
        self.differences == 0
    }
}

/// The numbers that apply, 0 where there are none.
fn joined(numbers: &[u64]) -> String {
    let words: Vec<String> = numbers.iter().map(u64::to_string).collect();
    match words[..] {
        [] => "0".to_string(),
        _ => words.join("+"),
    }
}

/// A call that writes, in words.
fn shown(writing: &Writing) -> String {
    let (what, count, bits) = (writing.what.name(), writing.what.count(), writing.bits);
    let rate = match writing.what.rate() {
        Some(rate) => format!(", rate {rate}"),
        None => String::new(),
    };
    let room = writing.buffer.len();
    format!("{what} of {count} samples, {bits} bits{rate}, room for {room}")
}

/// The name of a place in the words of what is written.
fn written_slot(place: usize, writing: &Writing) -> String {
    match place {
        0 => "number".to_string(),
        1 => "bytes reported".to_string(),
        2 => "samples held back".to_string(),
        _ => byte_slot(place - 3, writing),
    }
}

/// A byte with the sample that it is of, where it is of one.
fn byte_slot(byte: usize, writing: &Writing) -> String {
    let before = writing.what.rate().map_or(0, |_| 44);
    let width = (writing.bits / 8).max(1) as usize;
    let sample = byte.checked_sub(before).map(|at| at / width);
    match sample.and_then(|at| writing.what.samples().get(at)) {
        Some(x) => format!("byte {byte}, of the sample {x:e} ({:016x})", x.to_bits()),
        None => format!("byte {byte}"),
    }
}

/// The name of a place in the words of what is read.
fn heard_slot(place: usize) -> String {
    match place {
        0 => "number".to_string(),
        1 => "bits".to_string(),
        2 => "rate".to_string(),
        3 => "count".to_string(),
        _ => format!("entry {}", place - 4),
    }
}
