//! Our square root against f64::sqrt, all NaNs taken as one.

use crate::comparison::{Comparison, NAN, Subject, one_nan};
use crate::float_patterns::*;
use crate::generator::Generator;
use crate::ours::{Operation, Ours};

pub fn run(ours: &mut Ours, seed: u64) -> bool {
    let subject = Subject {
        name: "sqrt",
        unit: "patterns",
        operation: Operation::Sqrt,
        expected: |input| one_nan(f64::from_bits(input[0]).sqrt().to_bits()),
        read: one_nan,
    };
    let mut comparison = Comparison::new(subject, ours);
    let mut random = Generator::new(seed);
    comparison.every_exponent();
    specials(&mut comparison, &mut random);
    random_patterns(&mut comparison, &mut random);
    around_squares(&mut comparison, &mut random);
    around_half_ways(&mut comparison, &mut random);
    around_hardest(&mut comparison, &mut random);
    comparison.finish()
}

/// Zeros, infinities, and NaNs of both kinds and signs with payloads.
fn specials(comparison: &mut Comparison, random: &mut Generator) {
    for bits in [0, INFINITY, NAN] {
        comparison.pattern(bits);
        comparison.pattern(bits | SIGN);
    }
    for _ in 0..50_000 {
        let payload = 1 + random.below(FRACTION);
        comparison.pattern(INFINITY | payload);
        comparison.pattern(INFINITY | payload | SIGN);
    }
}

fn random_patterns(comparison: &mut Comparison, random: &mut Generator) {
    for _ in 0..4_000_000 {
        comparison.pattern(random.word());
    }
    for _ in 0..3_000_000 {
        comparison.pattern(from_one_to_four(random));
    }
    for _ in 0..1_000_000 {
        comparison.pattern(subnormal(random));
    }
}

/// A power of four that keeps a number of up to 53 bits normal.
fn any_quarters(random: &mut Generator) -> i64 {
    random.below(960) as i64 - 500
}

fn with_neighbours(comparison: &mut Comparison, bits: u64) {
    for near in bits - 1..=bits + 1 {
        comparison.pattern(near);
    }
}

fn around_squares(comparison: &mut Comparison, random: &mut Generator) {
    for _ in 0..500_000 {
        let k = 1 + random.below((1 << 26) - 1);
        with_neighbours(comparison, perfect_square(k, any_quarters(random)));
    }
}

fn around_half_ways(comparison: &mut Comparison, random: &mut Generator) {
    for _ in 0..500_000 {
        let y = (1 << 52) | (random.word() & FRACTION);
        with_neighbours(comparison, near_half_way(y, any_quarters(random)));
    }
}

/// The smallest residues of either sign, nearest first.
fn around_hardest(comparison: &mut Comparison, random: &mut Generator) {
    for step in 0..100_000 {
        for residue in [8 * step + 1, -8 * step - 7] {
            for bits in hardest(residue, any_quarters(random)) {
                with_neighbours(comparison, bits);
            }
        }
    }
}
