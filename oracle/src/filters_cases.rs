//! The stretches of the filters' fixed list.

use crate::excitation_values::{NEVER, around_zero, floats};
use crate::filter::{Arrays, Filter, Request};
use crate::filter_values::toward;
use crate::generator::Generator;
use crate::spectrum_values::decaying;

/// The list never changes by itself: its random values come from this seed.
const LIST_SEED: u64 = 1;

/// Taken in turn, so that each goes with each.
const ALPHAS: [f64; 5] = [0.42, 0.0, -0.3, 0.55, -0.0];
const VOLUMES: [f64; 4] = [1.0, 0.5, -2.0, 1e-300];

/// Stage, nmcp, samples.
type Case = (u64, usize, usize);

/// From fresh taps; at stage 0 it takes six samples till all of them have something.
const FRESH: [Case; 15] = [
    (0, 2, 10),
    (0, 5, 10),
    (0, 9, 10),
    (0, 13, 8),
    (0, 25, 8),
    (1, 2, 8),
    (2, 25, 6),
    (3, 5, 8),
    (4, 3, 8),
    (5, 6, 8),
    (6, 2, 8),
    (7, 3, 8),
    (8, 2, 8),
    (0, 3, 0),
    (4, 2, 0),
];

/// From taps of a voice's size.
const LATER: [Case; 15] = [
    (0, 2, 6),
    (0, 3, 8),
    (0, 6, 8),
    (0, 7, 8),
    (0, 10, 6),
    (0, 64, 2),
    (1, 64, 2),
    (1, 10, 6),
    (2, 13, 6),
    (3, 9, 6),
    (4, 7, 6),
    (5, 5, 6),
    (6, 6, 6),
    (7, 5, 6),
    (8, 3, 6),
];

/// With floats of any kind in every array: the volume, and a place of d21 or d and what stands there.
const ODD: [(Case, f64, usize, f64); 6] = [
    ((0, 5, 8), -0.0, 0, 5e-324),
    ((0, 7, 6), f64::MAX, 3, f64::INFINITY),
    ((0, 10, 2), 1.0, 21, f64::NAN),
    ((2, 6, 6), f64::INFINITY, 5, f64::NEG_INFINITY),
    ((4, 5, 6), 5e-324, 7, f64::NAN),
    ((8, 2, 6), f64::NAN, 0, -0.0),
];

/// A stage, the coefficient that makes the gain, its increment, and samples from fresh taps: past exp's ends on
/// the way, and at once, where a sample that is 0 has no gain at stage 0.
const GAINS: [(u64, f64, f64, [f64; 6]); 6] = [
    (0, 708.5, 0.25, [1e-300, 0.0, -1e-300, -0.0, 0.0, 1e-300]),
    (0, -707.5, -0.25, [1e300, -1e300, 1e300, 1e300, -0.0, 1e300]),
    (0, 800.0, 1.0, [0.0, -0.0, 0.0, -0.0, -0.0, 0.0]),
    (0, f64::NAN, 0.0, [-0.0, 0.0, 0.0, -0.0, 0.0, 0.0]),
    (0, f64::NEG_INFINITY, 1.0, [1.0, 0.0, -1.0, -0.0, 1.0, 0.0]),
    (3, f64::MAX, 1e300, [0.0, -0.0, 1e-300, 0.0, 2.0, 0.0]),
];

pub fn all() -> Vec<Request> {
    let random = &mut Generator::new(LIST_SEED);
    let mut requests = FRESH.map(|case| fresh(case, random)).to_vec();
    requests.extend(LATER.map(|case| later(case, random)));
    for (number, request) in requests.iter_mut().enumerate() {
        (request.alpha, request.volume) = (ALPHAS[number % 5], VOLUMES[number % 4]);
    }
    for (case, volume, place, tap) in ODD {
        let mut request = odd(case, random);
        request.volume = volume;
        request.arrays.taps.last_mut().expect("taps")[place] = tap;
        requests.push(request);
    }
    for (stage, gain, increment, samples) in GAINS {
        let mut request = fresh((stage, 3, 0), random);
        request.arrays.coefficients[0] = gain;
        request.arrays.increments[0] = increment;
        request.arrays.samples = samples.to_vec();
        requests.push(request);
    }
    requests
}

/// With coefficients that fall off, and samples of which every other one is zero, of either sign in turn.
fn fresh((stage, nmcp, count): Case, random: &mut Generator) -> Request {
    let filter = Filter::of_stage(stage);
    let coefficients = decaying(nmcp, random);
    let targets = decaying(nmcp, random);
    let sample = |place| match place % 4 {
        1 => 0.0,
        3 => -0.0,
        _ => 2.0 * around_zero(random),
    };
    Request {
        filter,
        alpha: ALPHAS[0],
        volume: VOLUMES[0],
        arrays: Arrays {
            samples: (0..count).map(sample).collect(),
            increments: toward(&targets, &coefficients, 10),
            coefficients,
            taps: filter.fresh(nmcp),
        },
    }
}

/// With any taps of a voice's size.
fn later(case: Case, random: &mut Generator) -> Request {
    let mut request = fresh(case, random);
    for taps in &mut request.arrays.taps {
        *taps = floats(taps.len(), NEVER, random);
    }
    request
}

/// With floats of which one in twelve is of any kind, and an infinity for the last sample.
fn odd(case: Case, random: &mut Generator) -> Request {
    let mut request = fresh(case, random);
    for array in request.arrays.all_mut() {
        *array = floats(array.len(), 12, random);
    }
    request.arrays.samples[case.2 - 1] = f64::NEG_INFINITY;
    request
}
