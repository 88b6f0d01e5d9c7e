//! Preparing a frame's coefficients from its spectrum, ours by one call a frame.

use crate::cases::Case;
use crate::generator::Generator;
use crate::preparing_calls::Preparing;
use crate::spectra::{ALPHA, prepare};
use crate::variants::{Variant, Ways, floats, with_bits};
use std::f64::consts::PI;

/// The entries of a spectrum, and the frames of a pass.
pub const NMCP: usize = 25;
const FRAMES: usize = 16;

/// The recursion of the pairs magnifies what cos and the powers are away from the Rust's.
const STEPS: u64 = 1 << 32;

const WAYS: Ways = [
    Variant {
        name: "ours",
        pass: |spectra, settings| over(spectra, settings, ours),
    },
    Variant {
        name: "Rust, called",
        pass: |spectra, settings| over(spectra, settings, rust_prepare),
    },
    Variant {
        name: "Rust, inlined",
        pass: |spectra, settings| over(spectra, settings, prepare),
    },
];

/// A new spectrum of so many entries.
type Spectrum = fn(usize, &mut Generator) -> Vec<u64>;

/// Cepstra at stage 0 and line spectral pairs at stage 2, without postfilter and with it.
pub fn all(random: &mut Generator) -> Vec<Case> {
    let mut cases = Vec::new();
    for (stage, spectrum) in [(0, cepstrum as Spectrum), (2, pairs)] {
        for beta in [0.0, 0.3_f64] {
            cases.push(Case {
                function: "prepare",
                set: format!("nmcp {NMCP}, stage {stage}, beta {beta}"),
                left: (0..FRAMES).flat_map(|_| spectrum(NMCP, random)).collect(),
                right: vec![beta.to_bits(), stage],
                count: FRAMES,
                variants: WAYS,
                steps: STEPS,
            });
        }
    }
    cases
}

/// A cepstrum that falls off.
pub fn cepstrum(nmcp: usize, random: &mut Generator) -> Vec<u64> {
    (0..nmcp)
        .map(|place| (4.0 * (random.unit() - 0.5) / (1 + place) as f64).to_bits())
        .collect()
}

/// Frequencies that rise below PI: the pinned Rust takes the gain for the first of them.
pub fn pairs(nmcp: usize, random: &mut Generator) -> Vec<u64> {
    let step = PI / (nmcp + 1) as f64;
    (1..=nmcp)
        .map(|place| (step * (place as f64 + 0.6 * (random.unit() - 0.5))).to_bits())
        .collect()
}

/// Prepares each of the spectra.
fn over(spectra: &[u64], settings: &[u64], prepare: impl Fn(&[f64], f64, u64, &mut [f64])) -> u64 {
    let (spectra, beta) = (floats(spectra), f64::from_bits(settings[0]));
    let mut targets = [0.0; NMCP];
    spectra.chunks(NMCP).fold(0, |sum, spectrum| {
        prepare(spectrum, beta, settings[1], &mut targets);
        with_bits(sum, &targets)
    })
}

fn ours(spectrum: &[f64], beta: f64, stage: u64, targets: &mut [f64]) {
    let preparing = Preparing {
        stage,
        alpha: ALPHA,
        beta,
    };
    preparing.prepare(spectrum, false, &mut [0.0; NMCP], targets);
}

#[inline(never)]
fn rust_prepare(spectrum: &[f64], beta: f64, stage: u64, targets: &mut [f64]) {
    prepare(spectrum, beta, stage, targets);
}
