//! Whole frames, from log F0, spectrum and taps to the samples: ours by one call a frame.

use crate::cases::Case;
use crate::constants::{MAX_LF0, MIN_LF0, NODATA};
use crate::frames::{FRAME, FRAMES, Frame, RATE, Setting, VOLUME};
use crate::generator::Generator;
use crate::native::NativeVocoder;
use crate::shim::{Configuration, Voice};
use crate::variants::{Variant, Ways, floats};
use crate::vocoder::Vocoder;

/// How many floats a sample the sums of sizes may be apart at stage 0: 2^-30 of a sum, for exp, ln and fused steps.
const STEPS: u64 = 1 << 10;
/// At another stage 2^-20 of a sum: the recursion of the pairs magnifies what cos and the powers are away.
const PAIRS_STEPS: u64 = 1 << 20;

const WAYS: Ways = [
    Variant {
        name: "ours",
        pass: |frames, setting| over(frames, setting, open, Voice::whole_frame),
    },
    Variant {
        name: "Rust, called",
        pass: |frames, setting| over(frames, setting, rust_open, rust_synthesize),
    },
    Variant {
        name: "Rust, native",
        pass: |frames, setting| {
            over(
                frames,
                setting,
                NativeVocoder::open,
                NativeVocoder::synthesize,
            )
        },
    },
];

/// nmcp, nlpf, stage, alpha and beta.
const SETTINGS: [(usize, usize, u64, f64, f64); 4] = [
    (25, 31, 0, 0.42, 0.0),
    (25, 31, 0, 0.42, 0.3),
    (40, 31, 0, 0.55, 0.0),
    (25, 0, 2, 0.42, 0.0),
];

pub fn all(random: &mut Generator) -> Vec<Case> {
    let case = |(nmcp, nlpf, stage, alpha, beta)| {
        let setting = Setting {
            nmcp,
            nlpf,
            stage,
            alpha,
            beta,
        };
        Case {
            function: "whole_frame",
            set: format!("{nmcp}/{nlpf}/{stage}, beta {beta}"),
            left: setting.new_frames(random),
            right: setting.words(),
            count: FRAME * FRAMES,
            variants: WAYS,
            steps: if stage == 0 { STEPS } else { PAIRS_STEPS },
        }
    };
    SETTINGS.into_iter().map(case).collect()
}

/// Makes every frame from a fresh voice on, and sums up the sizes of its samples.
pub fn over<V>(
    frames: &[u64],
    setting: &[u64],
    open: impl Fn(Setting) -> V,
    make: impl Fn(&mut V, Frame, &mut [f64]),
) -> u64 {
    let (frames, setting) = (floats(frames), Setting::of(setting));
    let mut voice = open(setting);
    let mut samples = [0.0; FRAME];
    let sum = setting.frames(&frames).fold(0.0, |sum, frame| {
        make(&mut voice, frame, &mut samples);
        sum + sizes(&samples)
    });
    finite(sum).to_bits()
}

/// Four sums side by side, so that few wait for one another.
pub fn sizes(samples: &[f64; FRAME]) -> f64 {
    let (fours, _) = samples.as_chunks::<4>();
    let sums = fours.iter().fold([0.0; 4], |sums: [f64; 4], four| {
        std::array::from_fn(|lane| sums[lane] + four[lane].abs())
    });
    sums.iter().sum()
}

/// No sample of a finite sum ran away.
pub fn finite(sum: f64) -> f64 {
    assert!(sum.is_finite(), "a sample is not finite");
    sum
}

pub fn open(setting: Setting) -> Voice {
    Voice::open(&Configuration {
        nmcp: setting.nmcp,
        nlpf: setting.nlpf,
        stage: setting.stage,
        log: false,
        rate: RATE,
        alpha: setting.alpha,
        beta: setting.beta,
        volume: VOLUME,
        fperiod: FRAME,
        nodata: NODATA,
        low: MIN_LF0,
        high: MAX_LF0,
    })
}

fn rust_open(setting: Setting) -> Vocoder {
    let Setting {
        nmcp,
        nlpf,
        stage,
        alpha,
        beta,
    } = setting;
    let (stage, rate) = (stage as usize, RATE as usize);
    Vocoder::new(nmcp, nlpf, stage, false, rate, alpha, beta, VOLUME, FRAME)
}

#[inline(never)]
fn rust_synthesize(vocoder: &mut Vocoder, frame: Frame, samples: &mut [f64]) {
    vocoder.synthesize(frame.lf0, frame.spectrum, frame.lpf, samples);
}
