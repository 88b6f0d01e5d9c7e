//! One comparison: collects inputs into blocks, asks both sides, counts and shows differences.

use crate::float_patterns::{EDGE_FRACTIONS, INFINITY, SIGN, positive};
use crate::ours::{BLOCK, Operation, Ours};
use std::hint::black_box;
use std::time::Instant;

/// How many differences are shown.
pub const SHOWN: u64 = 5;

/// The pattern that stands for every NaN.
pub const NAN: u64 = 0x7FF8_0000_0000_0000;

/// The same bits, with all NaNs taken as one. Told by the bits as a whole number and kept from the
/// optimiser, which holds any NaN for as good as another: it did drop this choice behind a square root.
pub fn one_nan(bits: u64) -> u64 {
    let is_nan = black_box(bits & !SIGN > INFINITY);
    if is_nan { NAN } else { bits }
}

/// What is compared: our operation, Rust's answer to one input, and how an answer of ours is read
/// (`one_nan` where any NaN will do, else as it is).
pub struct Subject {
    pub name: &'static str,
    pub unit: &'static str,
    pub operation: Operation,
    pub expected: fn(&[u64]) -> u64,
    pub read: fn(u64) -> u64,
}

pub struct Comparison<'a> {
    subject: Subject,
    ours: &'a mut Ours,
    pending: Vec<u64>,
    count: u64,
    differences: u64,
    started: Instant,
}

impl<'a> Comparison<'a> {
    pub fn new(subject: Subject, ours: &'a mut Ours) -> Self {
        Self {
            subject,
            ours,
            pending: Vec::new(),
            count: 0,
            differences: 0,
            started: Instant::now(),
        }
    }

    pub fn pattern(&mut self, bits: u64) {
        self.input(&[bits]);
    }

    /// Every exponent field (0 has zeros and subnormals, 2047 infinities and NaNs) with edge fractions.
    pub fn every_exponent(&mut self) {
        for field in 0..2048 {
            for fraction in EDGE_FRACTIONS {
                self.pattern(positive(field, fraction));
                self.pattern(positive(field, fraction) | SIGN);
            }
        }
    }

    pub fn pair(&mut self, a: u64, b: u64) {
        self.input(&[a, b]);
    }

    fn input(&mut self, words: &[u64]) {
        self.pending.extend_from_slice(words);
        if self.pending.len() == BLOCK * self.subject.operation.arity() {
            self.compare_pending();
        }
    }

    fn compare_pending(&mut self) {
        let inputs = std::mem::take(&mut self.pending);
        let answers = self.ours.answers(self.subject.operation, &inputs);
        for (input, answer) in inputs.chunks(self.subject.operation.arity()).zip(answers) {
            let expected = (self.subject.expected)(input);
            if (self.subject.read)(answer) != expected {
                self.note_difference(input, answer, expected);
            }
            self.count += 1;
        }
    }

    fn note_difference(&mut self, input: &[u64], answer: u64, expected: u64) {
        self.differences += 1;
        if self.differences <= SHOWN {
            let words: Vec<String> = input.iter().map(|word| format!("{word:016x}")).collect();
            println!(
                "{}: of {} ours {answer:016x}, Rust {expected:016x}",
                self.subject.name,
                words.join(" ")
            );
        }
    }

    /// Compares what is left, prints the line, and says whether all were equal.
    pub fn finish(mut self) -> bool {
        self.compare_pending();
        println!(
            "{}: {} {}, {} differences ({:.1} s)",
            self.subject.name,
            self.count,
            self.subject.unit,
            self.differences,
            self.started.elapsed().as_secs_f64()
        );
        self.differences == 0
    }
}
