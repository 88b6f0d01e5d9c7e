//! The parts of our whole frames, each by itself, over frames that are taken apart beforehand.

use crate::constants::{MAX_LF0, MIN_LF0, NODATA};
use crate::filter_calls::Stretch;
use crate::frames::{FRAME, Frame, RATE, Setting, VOLUME};
use crate::our_filter::OurFilter;
use crate::preparing_calls::Preparing;
use crate::shim::Excitation;
use crate::variants::{kipawnore_exp, with_bits};
use crate::whole_frames::{finite, sizes};

/// A frame with what each of its parts starts from.
pub struct Parted<'a> {
    frame: Frame<'a>,
    first: bool,
    /// In samples, 0 where unvoiced.
    period: f64,
    start: Vec<f64>,
    increments: Vec<f64>,
    excitation: [f64; FRAME],
}

/// Takes the frames of a voice apart, from a fresh one on.
pub fn apart<'a>(setting: Setting, floats: &'a [f64]) -> Vec<Parted<'a>> {
    let mut excitation = Excitation::new(setting.nlpf);
    let [mut start, mut targets] = [vec![0.0; setting.nmcp], vec![0.0; setting.nmcp]];
    let part = |(place, frame): (usize, Frame<'a>)| {
        let first = place == 0;
        of(setting).prepare(frame.spectrum, first, &mut start, &mut targets);
        let mut parted = Parted {
            frame,
            first,
            period: period(frame.lf0),
            start: start.clone(),
            increments: increments(&start, &targets),
            excitation: [0.0; FRAME],
        };
        excitation.frame(parted.period, frame.lpf, &mut parted.excitation);
        start.copy_from_slice(&targets);
        parted
    };
    setting.frames(floats).enumerate().map(part).collect()
}

fn of(setting: Setting) -> Preparing {
    Preparing {
        stage: setting.stage,
        alpha: setting.alpha,
        beta: setting.beta,
    }
}

fn period(lf0: f64) -> f64 {
    if lf0 == NODATA {
        return 0.0;
    }
    RATE as f64 / kipawnore_exp(lf0.clamp(MIN_LF0, MAX_LF0))
}

fn increments(start: &[f64], targets: &[f64]) -> Vec<f64> {
    let pairs = start.iter().zip(targets);
    pairs.map(|(s, t)| (t - s) / FRAME as f64).collect()
}

pub fn preparing(setting: Setting, frames: &[Parted]) -> u64 {
    let [mut start, mut targets] = [vec![0.0; setting.nmcp], vec![0.0; setting.nmcp]];
    frames.iter().fold(0, |sum, parted| {
        let spectrum = parted.frame.spectrum;
        of(setting).prepare(spectrum, parted.first, &mut start, &mut targets);
        with_bits(sum, &targets)
    })
}

pub fn excitation(setting: Setting, frames: &[Parted]) -> u64 {
    let mut excitation = Excitation::new(setting.nlpf);
    let mut samples = [0.0; FRAME];
    frames.iter().fold(0, |sum, parted| {
        excitation.frame(parted.period, parted.frame.lpf, &mut samples);
        with_bits(sum, &samples)
    })
}

/// The sum of its samples' sizes, as of whole frames.
pub fn filter(setting: Setting, frames: &[Parted]) -> u64 {
    let mut filter = OurFilter::new(setting.stage, setting.nmcp);
    let mut coefficients = vec![0.0; setting.nmcp];
    let sum = frames.iter().fold(0.0, |sum, parted| {
        let mut samples = parted.excitation;
        coefficients.copy_from_slice(&parted.start);
        filter.turn(Stretch {
            samples: &mut samples,
            coefficients: &mut coefficients,
            increments: &parted.increments,
            alpha: setting.alpha,
            volume: VOLUME,
        });
        sum + sizes(&samples)
    });
    finite(sum).to_bits()
}
