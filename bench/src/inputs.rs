//! The inputs: sets of independent random words, the same in every run.

use crate::generator::Generator;

/// How many inputs a pass goes over: they stay in the nearest caches.
pub const COUNT: usize = 4096;

const FRACTION: u64 = (1 << 52) - 1;

fn words(next: impl FnMut() -> u64) -> Vec<u64> {
    std::iter::repeat_with(next).take(COUNT).collect()
}

pub fn any_words(random: &mut Generator) -> Vec<u64> {
    words(|| random.word())
}

/// Floats, even over [low, high].
pub fn evenly(low: f64, high: f64, random: &mut Generator) -> Vec<u64> {
    words(|| (low + random.unit() * (high - low)).to_bits())
}

/// Positive and finite, every exponent field alike.
pub fn every_exponent(random: &mut Generator) -> Vec<u64> {
    words(|| random.below(2047) << 52 | random.word() & FRACTION)
}

pub fn subnormals(random: &mut Generator) -> Vec<u64> {
    words(|| random.word() & FRACTION)
}
