//! Random values of every kind for the filters: volumes, excitation, coefficients, increments, taps.

use crate::excitation_values::{NEVER, any_float, around_zero, floats};
use crate::generator::Generator;
use crate::spectrum_values::*;

/// As a voice has them: the samples then stay finite.
pub const SPOKEN: [Kind; 2] = [pulses, noise];
pub const FALLING: [Kind; 1] = [decaying];

/// Of any kind.
pub const EXCITATIONS: [Kind; 5] = [pulses, noise, silence, odd, of_any_size];
pub const COEFFICIENTS: [Kind; 6] = [decaying, decaying, loud, odd, of_all_sizes, hardly_any];

pub const TAPS: [Kind; 5] = [zeros, plain, of_any_size, odd, hardly_any];

/// Beside those that lead to other coefficients.
pub const INCREMENTS: [Kind; 4] = [zeros, odd, hardly_any, outgrowing];

/// One of these kinds.
pub fn any_kind(kinds: &[Kind], random: &mut Generator) -> Kind {
    kinds[random.below(kinds.len() as u64) as usize]
}

/// Of all kinds, though mostly as a voice has it.
pub fn any_volume(random: &mut Generator) -> f64 {
    match random.below(32) {
        0 => any_of(&[0.0, -0.0], random),
        1 => any_of(&[5e-324, -f64::MIN_POSITIVE, 1e-300], random),
        2 => any_of(&[f64::MAX, f64::MIN, 1e300], random),
        3 => any_of(&[f64::INFINITY, f64::NEG_INFINITY, f64::NAN], random),
        4 => any_float(random),
        5..12 => 1.0,
        _ => 2.0 * around_zero(random),
    }
}

/// What leads from coefficients to others in so many samples, as `synthesize` works it out.
pub fn toward(targets: &[f64], coefficients: &[f64], samples: usize) -> Vec<f64> {
    let pairs = targets.iter().zip(coefficients);
    pairs
        .map(|(target, coefficient)| (target - coefficient) / samples as f64)
        .collect()
}

/// As of a voiced frame: the root of the period, and between zeros of one sign, or of both.
fn pulses(count: usize, random: &mut Generator) -> Vec<f64> {
    let period = 2 + random.below(200) as usize;
    let from = random.below(200) as usize;
    let zeros: &[f64] = match random.below(3) {
        0 => &[0.0],
        1 => &[-0.0],
        _ => &[0.0, -0.0],
    };
    let sample = |place| match place % period {
        0 => (period as f64).sqrt(),
        _ => any_of(zeros, random),
    };
    (from..from + count).map(sample).collect()
}

/// As of an unvoiced frame.
fn noise(count: usize, random: &mut Generator) -> Vec<f64> {
    let mut sample = || around_zero(random) + around_zero(random) + around_zero(random);
    (0..count).map(|_| sample()).collect()
}

/// Zeros of both signs, and now and then a sample.
fn silence(count: usize, random: &mut Generator) -> Vec<f64> {
    let one_in = 1 + random.below(1_000);
    let mut sample = || match random.below(one_in) {
        0 => around_zero(random),
        _ => any_of(&[0.0, -0.0], random),
    };
    (0..count).map(|_| sample()).collect()
}

fn zeros(count: usize, _: &mut Generator) -> Vec<f64> {
    vec![0.0; count]
}

/// Of a voice's size.
pub fn plain(count: usize, random: &mut Generator) -> Vec<f64> {
    floats(count, NEVER, random)
}

fn of_any_size(count: usize, random: &mut Generator) -> Vec<f64> {
    (0..count).map(|_| of_size(-1022, 1023, random)).collect()
}

/// Of a voice's size but for a few, which lead beyond the floats within some samples.
fn outgrowing(count: usize, random: &mut Generator) -> Vec<f64> {
    let mut increment = || match random.below(8) {
        0 => of_size(1_015, 1_023, random),
        _ => around_zero(random) / 100.0,
    };
    (0..count).map(|_| increment()).collect()
}
