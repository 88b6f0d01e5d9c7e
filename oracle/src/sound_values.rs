//! Random values for sound files: samples, rates, and where a file is cut.

use crate::float_patterns::{FRACTION, INFINITY, SIGN, positive, subnormal};
use crate::generator::Generator;

/// The scale of a sample: the number of 16 bits that it is to be, whatever the width.
const FULL: f64 = 32_768.0;

/// A sample about as a voice makes it: within the range, and beyond it by a twentieth at most.
pub fn plain(random: &mut Generator) -> f64 {
    (2.0 * random.unit() - 1.0) * FULL * 1.05
}

/// A sample of any kind, mostly a plain one.
pub fn any_sample(random: &mut Generator) -> f64 {
    match random.below(16) {
        0 => f64::from_bits(random.word()),
        1 => f64::from_bits(any_nan(random)),
        2 => any_sign(f64::INFINITY, random),
        3 => any_sign(FULL - 0.5 / (1 + 255 * random.below(2)) as f64, random),
        4 => any_sign(f64::from_bits(subnormal(random)), random),
        5 => (random.below(1 << 17) as f64 - 65_536.0) / 2.0,
        6 => (random.below(1 << 25) as f64 - 16_777_216.0) / 512.0,
        _ => plain(random),
    }
}

fn any_sign(size: f64, random: &mut Generator) -> f64 {
    match random.below(2) {
        0 => size,
        _ => -size,
    }
}

/// A NaN of either sign, quiet or not, with any payload.
pub fn any_nan(random: &mut Generator) -> u64 {
    INFINITY | 1 << random.below(52) | random.word() & (SIGN | FRACTION)
}

/// A float so large that 256 times it is infinite, or nearly so.
pub fn huge(random: &mut Generator) -> u64 {
    positive(2_036 + random.below(11), random.word()) | random.word() & SIGN
}

/// A rate within its limits, which come up often.
pub fn any_rate(random: &mut Generator) -> u64 {
    match random.below(8) {
        0 => 1,
        1 => 192_000,
        2 => [8_000, 16_000, 44_100, 48_000][random.below(4) as usize],
        _ => 1 + random.below(192_000),
    }
}

/// Lengths of parts, empty ones among them, that come to this sum.
pub fn any_parts(mut sum: usize, random: &mut Generator) -> Vec<usize> {
    let most = 1 + random.below(1 + sum as u64);
    let mut parts = Vec::new();
    while sum > 0 {
        let part = (random.below(4).min(1) * random.below(1 + most)).min(sum as u64) as usize;
        parts.push(part);
        sum -= part;
    }
    parts.extend(vec![0; random.below(2) as usize]);
    parts
}
