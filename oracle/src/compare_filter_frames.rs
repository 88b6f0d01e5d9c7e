//! Whole frames by the routed copy's `synthesize`, beside the same frames in parts: the Rust's preparation and
//! excitation, then our filter. It holds a stretch to `synthesize` itself, and not to our reading of it.

use crate::filter::{Arrays, Filter, Outcome, Request};
use crate::filter_tally::Tally;
use crate::filter_values::toward;
use crate::frames::{Frame, FrameSet, Settings};
use crate::generated_frames;
use crate::generator::Generator;
use crate::ours::Ours;
use crate::rusts_spectrum;
use crate::spectra_cases::step;
use crate::spectrum::{self, DONE};
use crate::spectrum_values::decaying;
use crate::{routes, rusts_excitation};
use pinned::constants::{MAX_LF0, MIN_LF0, NODATA};
use routed::vocoder::Vocoder;
use std::cell::RefCell;

/// The frames of a set that are taken.
const FRAMES: usize = 20;

/// A voice twice: whole, as the Rust has it, and in parts.
struct Voice<'a> {
    settings: &'a Settings,
    whole: Vocoder,
    excitation: rusts_excitation::Rusts,
    filter: Request,
    first: bool,
    /// The coefficients that the last frame led to.
    targets: Vec<f64>,
}

/// The generated sets without refusals, at their stages and, with cepstra in place of pairs, at stage 0.
pub fn frames(ours: &RefCell<Ours>, random: &mut Generator) -> bool {
    let mut tally = Tally::new("whole frames");
    for mut set in generated_frames::sets(random.word()) {
        if set.refusals == 0 {
            over(&set, ours, &mut tally);
            set.settings.stage = 0;
            for frame in &mut set.frames {
                frame.spectrum = decaying(set.settings.nmcp, random);
            }
            over(&set, ours, &mut tally);
        }
    }
    tally.finish()
}

fn over(set: &FrameSet, ours: &RefCell<Ours>, tally: &mut Tally) {
    let mut voice = Voice::open(&set.settings);
    for frame in &set.frames[..FRAMES] {
        voice.give(frame);
        let own = ours.borrow_mut().filter(&voice.filter);
        let mut right = Outcome {
            number: DONE,
            arrays: own.arrays.clone(),
        };
        let Frame { lf0, spectrum, lpf } = frame;
        let samples = &mut right.arrays.samples;
        samples.fill(f64::NAN);
        voice.whole.synthesize(*lf0, spectrum, lpf, samples);
        tally.compare(&voice.filter, &own, &right);
        voice.filter.arrays.taps = own.arrays.taps;
    }
}

impl<'a> Voice<'a> {
    fn open(settings: &'a Settings) -> Self {
        let nmcp = settings.nmcp;
        let filter = Filter::of_stage(settings.stage as u64);
        Self {
            settings,
            whole: Vocoder::new(
                nmcp,
                settings.nlpf,
                settings.stage,
                settings.log_gain,
                settings.rate,
                settings.alpha,
                settings.beta,
                settings.volume,
                settings.fperiod,
            ),
            excitation: rusts_excitation::Rusts::fresh(settings.nlpf),
            filter: Request {
                filter,
                alpha: settings.alpha,
                volume: settings.volume,
                arrays: Arrays {
                    samples: Vec::new(),
                    coefficients: vec![0.0; nmcp],
                    increments: vec![0.0; nmcp],
                    taps: filter.fresh(nmcp),
                },
            },
            first: true,
            targets: vec![0.0; nmcp],
        }
    }

    /// Puts a frame's coefficients, increments and excitation before the filter.
    fn give(&mut self, frame: &Frame) {
        let &Settings { rate, fperiod, .. } = self.settings;
        let [_, start, targets] = self.prepared(&frame.spectrum);
        let arrays = &mut self.filter.arrays;
        arrays.increments = toward(&targets, &start, fperiod);
        arrays.coefficients = start;
        self.targets = targets;
        let voiced = frame.lf0 != NODATA;
        let period = rate as f64 / routes::exp(frame.lf0.clamp(MIN_LF0, MAX_LF0));
        self.excitation.start(voiced, period, fperiod as u64);
        arrays.samples = self.excitation.stretch(fperiod, &frame.lpf).samples;
        self.excitation.end();
    }

    /// The spectrum, the coefficients that its frame starts from, and those that it leads to.
    fn prepared(&mut self, spectrum: &[f64]) -> spectrum::Arrays {
        let settings = self.settings;
        let stage = settings.stage as u64;
        let first = std::mem::take(&mut self.first);
        let start = self.targets.clone();
        let request = spectrum::Request {
            step: step(stage),
            alpha: settings.alpha,
            beta: settings.beta,
            stage,
            log_gain: settings.log_gain,
            first,
            arrays: [spectrum.to_vec(), start, vec![0.0; settings.nmcp]],
        };
        rusts_spectrum::outcome(&request).arrays
    }
}
