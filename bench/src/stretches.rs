//! The filters, from a frame's excitation to its samples: ours by one call a frame.

use crate::cases::{Case, EXACT};
use crate::filter_calls::Stretch;
use crate::filters::{Stage, filter};
use crate::frames::{FRAME, FRAMES, VOLUME};
use crate::generator::Generator;
use crate::our_filter::OurFilter;
use crate::preparations::{NMCP, pairs};
use crate::spectra::{ALPHA, prepare};
use crate::variants::{Variant, Ways, floats, with_bits};

/// At stage 0 the gain is as far from the Rust's as exp is, and a fused step half a float; samples that cancel are
/// further. At another stage there is neither.
const STEPS: u64 = 1 << 12;

const WAYS: Ways = [
    Variant {
        name: "ours",
        pass: ours,
    },
    Variant {
        name: "Rust, called",
        pass: |frames, settings| rusts(frames, settings, rust_filter),
    },
    Variant {
        name: "Rust, inlined",
        pass: |frames, settings| rusts(frames, settings, filter),
    },
];

/// At stage 0 with coefficients of two lengths, and at stage 2.
pub fn all(random: &mut Generator) -> Vec<Case> {
    let settings = [
        (NMCP, 0, ALPHA, STEPS),
        (40, 0, 0.55, STEPS),
        (NMCP, 2, ALPHA, EXACT),
    ];
    settings
        .into_iter()
        .map(|(nmcp, stage, alpha, steps)| Case {
            function: "filter",
            set: format!("nmcp {nmcp}, stage {stage}"),
            left: frames(nmcp, stage, random),
            right: vec![nmcp as u64, stage, alpha.to_bits()],
            count: FRAME * FRAMES,
            variants: WAYS,
            steps,
        })
        .collect()
}

/// Frame after frame: the coefficients that it starts from, their increments, and noise.
fn frames(nmcp: usize, stage: u64, random: &mut Generator) -> Vec<u64> {
    let mut words = Vec::new();
    let mut start = coefficients(nmcp, stage, random);
    for _ in 0..FRAMES {
        let targets = coefficients(nmcp, stage, random);
        let pairs = targets.iter().zip(&start);
        let increments = pairs.map(|(target, start)| (target - start) / FRAME as f64);
        words.extend(start.iter().copied().chain(increments).map(f64::to_bits));
        words.extend((0..FRAME).map(|_| (2.0 * random.unit() - 1.0).to_bits()));
        start = targets;
    }
    words
}

/// As a voice has them, so that no sample runs away: falling off, or those of rising pairs.
fn coefficients(nmcp: usize, stage: u64, random: &mut Generator) -> Vec<f64> {
    if stage == 0 {
        let falling = (1..=nmcp).map(|place| 4.0 * (random.unit() - 0.5) / place as f64);
        return falling.collect();
    }
    let mut coefficients = vec![0.0; nmcp];
    prepare(&floats(&pairs(NMCP, random)), 0.0, stage, &mut coefficients);
    coefficients
}

/// Hands on every frame, and sums up its samples.
fn over(frames: &[u64], settings: &[u64], mut filter: impl FnMut(Stretch)) -> u64 {
    let (mut frames, nmcp) = (floats(frames), settings[0] as usize);
    let alpha = f64::from_bits(settings[2]);
    frames.chunks_mut(2 * nmcp + FRAME).fold(0, |sum, frame| {
        let (coefficients, rest) = frame.split_at_mut(nmcp);
        let (increments, samples) = rest.split_at_mut(nmcp);
        filter(Stretch {
            samples,
            coefficients,
            increments,
            alpha,
            volume: VOLUME,
        });
        with_bits(sum, samples)
    })
}

fn ours(frames: &[u64], settings: &[u64]) -> u64 {
    let mut filter = OurFilter::new(settings[1], settings[0] as usize);
    over(frames, settings, |stretch| filter.turn(stretch))
}

fn rusts(frames: &[u64], settings: &[u64], filter: impl Fn(&mut Stage, Stretch)) -> u64 {
    let mut stage = Stage::new(settings[1] as usize, settings[0] as usize);
    over(frames, settings, |stretch| filter(&mut stage, stretch))
}

#[inline(never)]
fn rust_filter(stage: &mut Stage, stretch: Stretch) {
    filter(stage, stretch);
}
