//! Random values of every kind for the functions on spectra: alpha, beta, cepstra.

use crate::excitation_values::{any_float, around_zero, floats};
use crate::float_patterns::subnormal;
use crate::generator::Generator;

/// So many entries of one kind.
pub type Kind = fn(usize, &mut Generator) -> Vec<f64>;

pub const CEPSTRA: [Kind; 7] = [
    decaying,
    decaying,
    odd,
    of_all_sizes,
    loud,
    at_powers_ends,
    hardly_any,
];

/// The largest base of the powers.
pub const MOST_BASE: f64 = (1_u128 << 120) as f64;

/// As a voice has it: strictly between -1 and 1, both zeros and the ends often.
pub fn any_alpha(random: &mut Generator) -> f64 {
    match random.below(8) {
        0 => 0.0,
        1 => -0.0,
        2 => 0.42,
        3 => 1.0_f64.next_down().copysign(around_zero(random)),
        _ => around_zero(random),
    }
}

/// As a voice has it: from 0 to 1, the ends and small ones often.
pub fn any_beta(random: &mut Generator) -> f64 {
    match random.below(8) {
        0 => 0.0,
        1 => 1.0,
        2 => 1e-3,
        3 => 10.0_f64.powi(-(random.below(309) as i32)),
        _ => random.unit(),
    }
}

/// A float of either sign whose exponent is one from `low` up to `high`.
pub fn of_size(low: i32, high: i32, random: &mut Generator) -> f64 {
    let exponent = low + random.below((high - low) as u64) as i32;
    let size = 2.0_f64.powi(exponent) * (1.0 + random.unit());
    size.copysign(around_zero(random))
}

/// One of these floats, or one beside it.
pub fn at_or_beside(ends: &[f64], random: &mut Generator) -> f64 {
    let end = any_of(ends, random);
    any_of(&[end.next_down(), end, end.next_up()], random)
}

pub fn any_of(floats: &[f64], random: &mut Generator) -> f64 {
    floats[random.below(floats.len() as u64) as usize]
}

/// Falls off as a voice's cepstrum does.
pub fn decaying(entries: usize, random: &mut Generator) -> Vec<f64> {
    let mut cepstrum: Vec<f64> = (0..entries)
        .map(|place| 2.0 * around_zero(random) / (1 + place) as f64)
        .collect();
    cepstrum[0] = 9.0 * random.unit() - 3.0;
    cepstrum
}

/// Of a voice's size, with more or fewer of any kind among them.
pub fn odd(entries: usize, random: &mut Generator) -> Vec<f64> {
    let one_in = 1 << random.below(10);
    floats(entries, one_in, random)
}

pub fn of_all_sizes(entries: usize, random: &mut Generator) -> Vec<f64> {
    (0..entries).map(|_| of_size(-30, 12, random)).collect()
}

/// Of which the energy comes near the largest and the smallest floats, or beyond.
pub fn loud(entries: usize, random: &mut Generator) -> Vec<f64> {
    let mut cepstrum = decaying(entries, random);
    cepstrum[0] = match random.below(4) {
        0 => at_or_beside(&[709.0, -708.0], random),
        _ => (250.0 + 500.0 * random.unit()).copysign(around_zero(random)),
    };
    cepstrum
}

/// With an entry 0 that is a base, or makes one, at an end of the powers.
fn at_powers_ends(entries: usize, random: &mut Generator) -> Vec<f64> {
    let mut cepstrum = decaying(entries, random);
    let stage = (1 + random.below(8)) as f64;
    let ends = [MOST_BASE, 1.0 / MOST_BASE, -stage * MOST_BASE, stage, 0.0];
    cepstrum[0] = at_or_beside(&ends, random);
    cepstrum
}

/// Zeros of both signs, subnormals, and now and then any float.
pub fn hardly_any(entries: usize, random: &mut Generator) -> Vec<f64> {
    let mut entry = || match random.below(16) {
        0 => any_float(random),
        1..8 => 0.0,
        8..12 => -0.0,
        _ => f64::from_bits(subnormal(random)).copysign(around_zero(random)),
    };
    (0..entries).map(|_| entry()).collect()
}
