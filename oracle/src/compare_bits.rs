//! Our conversions between floats and their bits against f64's: each alone, then there and back,
//! which must give the pattern itself, and the one NaN for every NaN.

use crate::comparison::{Comparison, Subject, one_nan};
use crate::float_patterns::*;
use crate::generator::Generator;
use crate::ours::{Operation, Ours};

pub fn run(ours: &mut Ours, seed: u64) -> bool {
    let mut equal = true;
    for (name, operation, read) in [
        ("float_of", Operation::FloatOf, one_nan as fn(u64) -> u64),
        ("bits_of", Operation::BitsOf, |answer| answer),
        ("bits_of(float_of)", Operation::RoundTrip, |answer| answer),
    ] {
        let subject = Subject {
            name,
            unit: "patterns",
            operation,
            expected: |input| one_nan(input[0]),
            read,
        };
        equal &= over_patterns(Comparison::new(subject, ours), seed);
    }
    equal
}

fn over_patterns(mut comparison: Comparison, seed: u64) -> bool {
    let mut random = Generator::new(seed);
    comparison.every_exponent();
    every_kind_of_nan(&mut comparison, &mut random);
    for _ in 0..9_000_000 {
        comparison.pattern(random.word());
    }
    for _ in 0..500_000 {
        let bits = subnormal(&mut random);
        comparison.pattern(bits);
        comparison.pattern(bits | SIGN);
    }
    comparison.finish()
}

/// Quiet and signalling NaNs of both signs: payloads of one bit, and random ones.
fn every_kind_of_nan(comparison: &mut Comparison, random: &mut Generator) {
    let single_bits = (0..52).map(|bit| 1 << bit);
    let any_payloads = (0..100_000).map(|_| 1 + random.below(FRACTION));
    for payload in single_bits.chain(any_payloads) {
        comparison.pattern(INFINITY | payload);
        comparison.pattern(INFINITY | payload | SIGN);
    }
}
