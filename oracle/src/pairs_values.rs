//! Line spectral pairs of every kind, a gain first: as voices have them, and odd ones.

use crate::excitation_values::{any_float, around_zero};
use crate::generator::Generator;
use crate::spectrum_values::*;
use std::f64::consts::PI;

pub const PAIRS: [Kind; 9] = [
    rising,
    rising,
    unsorted,
    with_equals,
    crowded,
    large,
    beyond,
    with_any_gain,
    with_odd_ones,
];

/// Alpha, and pairs that are outside before their repair and inside after it: of the first, the base of the
/// last power is below zero; of the second, a frequency is beyond cos.
pub const REFUSED_AS_FIRST: [(f64, [f64; 4]); 2] = [
    (0.75, [2.0, 3.0, 2.75, 0.25]),
    (0.42, [1.0, 0.75, 1.5, 2_097_152.0]),
];

/// The largest angle of cos, and the logarithm of the powers' largest base.
const MOST_ANGLE: f64 = 1_048_576.0;
const LN_MOST_BASE: f64 = 83.177_661_667_193_43;

/// Frequencies that rise between 0 and PI.
pub fn rising(entries: usize, random: &mut Generator) -> Vec<f64> {
    let step = PI / entries as f64;
    let frequency =
        |place, random: &mut Generator| step * (place as f64 + 0.8 * (random.unit() - 0.5));
    let mut pairs: Vec<f64> = (0..entries).map(|place| frequency(place, random)).collect();
    pairs[0] = 0.1 + 2.0 * random.unit();
    pairs
}

/// Pairs whose frequencies are replaced by any of these.
fn with(
    entries: usize,
    random: &mut Generator,
    frequency: impl Fn(&mut Generator) -> f64,
) -> Vec<f64> {
    let mut pairs = rising(entries, random);
    pairs[1..].fill_with(|| frequency(random));
    pairs
}

fn unsorted(entries: usize, random: &mut Generator) -> Vec<f64> {
    with(entries, random, |random| PI * random.unit())
}

/// With two or more equal neighbours, or all of them equal: zeros too.
fn with_equals(entries: usize, random: &mut Generator) -> Vec<f64> {
    let mut pairs = rising(entries, random);
    let from = 1 + random.below(entries as u64 - 1) as usize;
    let (range, value) = match random.below(4) {
        0 => (1..entries, any_of(&[0.0, -0.0, 1.0, PI], random)),
        _ => (
            from..entries.min(from + 2 + random.below(3) as usize),
            pairs[from],
        ),
    };
    pairs[range].fill(value);
    pairs
}

/// Rising, but nearer to each other than the least gap, or at 0 or at PI.
pub fn crowded(entries: usize, random: &mut Generator) -> Vec<f64> {
    let mut pairs = rising(entries, random);
    let (from, width) = (4.0 * random.unit() - 0.5, 0.5 * random.unit());
    for frequency in &mut pairs[1..] {
        *frequency = from + width * *frequency;
    }
    pairs
}

/// Of any size that cos has.
fn large(entries: usize, random: &mut Generator) -> Vec<f64> {
    with(entries, random, |random| of_size(-8, 20, random))
}

/// With one frequency, or two, at the end of cos or beyond.
fn beyond(entries: usize, random: &mut Generator) -> Vec<f64> {
    let mut pairs = rising(entries, random);
    for _ in 0..=random.below(2) {
        let place = 1 + random.below(entries as u64 - 1) as usize;
        pairs[place] = match random.below(2) {
            0 => at_or_beside(&[MOST_ANGLE, -MOST_ANGLE], random),
            _ => of_size(20, 60, random),
        };
    }
    pairs
}

/// With a gain at an end of the powers, of any size, zero, or any float.
fn with_any_gain(entries: usize, random: &mut Generator) -> Vec<f64> {
    let ends = [1.0 / MOST_BASE, MOST_ANGLE, LN_MOST_BASE, -LN_MOST_BASE];
    let mut pairs = rising(entries, random);
    pairs[0] = match random.below(5) {
        0 => at_or_beside(&ends, random),
        1 => of_size(-125, 21, random),
        2 => 40.0 * around_zero(random),
        3 => any_of(&[0.0, -0.0], random),
        _ => any_float(random),
    };
    pairs
}

/// With more or fewer floats of any kind among them.
fn with_odd_ones(entries: usize, random: &mut Generator) -> Vec<f64> {
    let one_in = 8 << random.below(6);
    let mut pairs = rising(entries, random);
    for entry in &mut pairs {
        if random.below(one_in) == 0 {
            *entry = any_float(random);
        }
    }
    pairs
}
