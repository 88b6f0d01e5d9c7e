//! The frames of the spectra's fixed list.

use crate::excitation_values::{NEVER, floats};
use crate::generator::Generator;
use crate::pairs_values::{REFUSED_AS_FIRST, crowded, rising};
use crate::spectrum::{Request, Step};
use crate::spectrum_values::{Kind, decaying};

/// The list never changes by itself: its random values come from this seed.
const LIST_SEED: u64 = 1;

/// Taken in turn by the short spectra, so that each goes with each.
const ALPHAS: [f64; 5] = [0.42, 0.0, -0.3, 0.55, -0.0];
const BETAS: [f64; 3] = [0.0, 0.4, 1e-3];

/// Stage, nmcp, beta.
const LONGER: [(u64, usize, f64); 6] = [
    (0, 25, 0.0),
    (0, 25, 0.3),
    (2, 25, 0.0),
    (5, 25, 0.3),
    (8, 25, 1.0),
    (3, 64, 0.0),
];

/// Stage, nmcp, beta; entries 1, 2 and 3 are equal, so that the postfilter makes a NaN.
const EQUAL: [(u64, usize, f64); 3] = [(1, 4, 0.3), (4, 6, 1.0), (8, 9, 1e-3)];

/// A cepstrum of floats that no voice has.
const ODD: [f64; 6] = [2.5, f64::NAN, -0.0, f64::INFINITY, 5e-324, f64::MAX];

pub fn all() -> Vec<Request> {
    let random = &mut Generator::new(LIST_SEED);
    let mut requests = short_ones(random);
    requests.extend(LONGER.map(|(stage, nmcp, beta)| plain(stage, nmcp, beta, random)));
    requests.extend(outside(random));
    for alpha in [0.42, 0.0] {
        requests.push(Request {
            alpha,
            first: true,
            ..frame(0, 0.0, ODD.to_vec(), random)
        });
    }
    requests
}

/// Every stage, four lengths running at each, and all else in turn.
fn short_ones(random: &mut Generator) -> Vec<Request> {
    let mut requests = Vec::new();
    for (stage, least) in (0..=8).zip([2, 6, 9].into_iter().cycle()) {
        for nmcp in (least..least + 4).flat_map(|nmcp| [nmcp; 2]) {
            let number = requests.len();
            requests.push(Request {
                alpha: ALPHAS[number % 5],
                log_gain: number / 2 % 2 == 1,
                first: number % 2 == 0,
                ..plain(stage, nmcp, BETAS[number % 3], random)
            });
        }
    }
    requests
}

/// Frames that are refused, beside two that are refused as first frames only.
fn outside(random: &mut Generator) -> Vec<Request> {
    let mut requests = Vec::new();
    for (stage, (alpha, pairs)) in [2, 7].into_iter().zip(REFUSED_AS_FIRST) {
        for first in [true, false] {
            requests.push(Request {
                alpha,
                first,
                ..frame(stage, 0.0, pairs.to_vec(), random)
            });
        }
    }
    for (stage, nmcp, beta) in EQUAL {
        let mut request = plain(stage, nmcp, beta, random);
        request.arrays[0][1..4].fill(1.0);
        requests.push(request);
    }
    // A gain below zero is outside the power, and an energy beyond the floats makes a NaN for ln.
    for (stage, beta, gain) in [(3, 0.0, -1.0), (6, 0.4, -1.0), (0, 0.4, 400.0)] {
        let mut request = plain(stage, 5, beta, random);
        request.arrays[0][0] = gain;
        requests.push(request);
    }
    requests
}

/// A cepstrum that falls off, or pairs that rise, one in four of these to be repaired.
fn plain(stage: u64, nmcp: usize, beta: f64, random: &mut Generator) -> Request {
    let kind: Kind = match (stage, random.below(4)) {
        (0, _) => decaying,
        (_, 0) => crowded,
        _ => rising,
    };
    let spectrum = kind(nmcp, random);
    frame(stage, beta, spectrum, random)
}

/// Not the first, without log gain, and with any numbers to start from.
fn frame(stage: u64, beta: f64, spectrum: Vec<f64>, random: &mut Generator) -> Request {
    let nmcp = spectrum.len();
    Request {
        step: step(stage),
        alpha: ALPHAS[0],
        beta,
        stage,
        log_gain: false,
        first: false,
        arrays: [spectrum, floats(nmcp, NEVER, random), vec![0.0; nmcp]],
    }
}

/// The function that prepares a frame at a stage.
pub fn step(stage: u64) -> Step {
    if stage == 0 {
        Step::PrepareMcp
    } else {
        Step::PrepareLsp
    }
}
