//! Our two filters against the Rust's own, whose exp is answered by ours: numbers, samples, coefficients and
//! taps, bit for bit, all NaNs taken as one.

use crate::answerers::our_own;
use crate::check_fir;
use crate::compare_filter_frames::frames;
use crate::compare_filter_limits::limits;
use crate::filter::{Arrays, Filter, Request};
use crate::filter_sides::Sides;
use crate::filter_tally::Tally;
use crate::filter_values::*;
use crate::generator::Generator;
use crate::ours::Ours;
use crate::routes;
use crate::spectrum_values::any_alpha;
use std::cell::RefCell;
use std::ops::RangeInclusive;
use std::rc::Rc;

/// A name, its stages, and how many voices and how many other states for each stage and nmcp.
const FAMILIES: [(&str, RangeInclusive<u64>, usize, usize); 2] =
    [("stage 0", 0..=0, 10, 60), ("stages 1 to 8", 1..=8, 1, 8)];

/// The frames of a voice, and the most samples of a frame or of a stretch.
const FRAMES: usize = 4;
const MOST_SAMPLES: u64 = 400;

pub fn run(ours: &Rc<RefCell<Ours>>, seed: u64) -> bool {
    routes::answer_by(&our_own(Rc::clone(ours)));
    let mut random = Generator::new(seed);
    let mut good = check_fir::run();
    for (name, stages, voices, states) in FAMILIES {
        let mut tally = Tally::new(name);
        for nmcp in 2..=64 {
            for filter in stages.clone().map(Filter::of_stage) {
                for _ in 0..voices {
                    voice(ours, &mut tally, filter, nmcp, &mut random);
                }
                for _ in 0..states {
                    state(ours, &mut tally, filter, nmcp, &mut random);
                }
            }
        }
        good &= tally.is_fair();
        good &= tally.finish();
    }
    for part in [limits, frames] {
        good &= part(ours, &mut random);
    }
    good
}

/// Frames from fresh taps on, with coefficients that fall off; in one voice of eight they are of any kind.
fn voice(
    ours: &RefCell<Ours>,
    tally: &mut Tally,
    filter: Filter,
    nmcp: usize,
    random: &mut Generator,
) {
    let kinds = match random.below(8) {
        0 => &COEFFICIENTS[..],
        _ => &FALLING,
    };
    let (alpha, volume) = (any_alpha(random), any_volume(random));
    let mut sides = Sides::fresh(ours, filter, nmcp, alpha, volume);
    let mut coefficients = any_kind(kinds, random)(nmcp, random);
    for _ in 0..FRAMES {
        let targets = any_kind(kinds, random)(nmcp, random);
        let samples = 1 + random.below(MOST_SAMPLES) as usize;
        sides.start(&coefficients, &toward(&targets, &coefficients, samples));
        let excitation = any_kind(&SPOKEN, random)(samples, random);
        cut(&mut sides, tally, &excitation, random);
        coefficients = targets;
    }
}

/// A stretch with taps, coefficients, increments and samples of any kind, whether a frame leads there or not.
fn state(
    ours: &RefCell<Ours>,
    tally: &mut Tally,
    filter: Filter,
    nmcp: usize,
    random: &mut Generator,
) {
    let most = 1 + random.below(MOST_SAMPLES);
    let samples = random.below(most) as usize;
    let coefficients = any_kind(&COEFFICIENTS, random)(nmcp, random);
    let increments = match random.below(2) {
        0 => any_kind(&INCREMENTS, random)(nmcp, random),
        _ => toward(
            &any_kind(&COEFFICIENTS, random)(nmcp, random),
            &coefficients,
            samples,
        ),
    };
    let kind = any_kind(&TAPS, random);
    let lengths = filter.lengths(nmcp).into_iter();
    let request = Request {
        filter,
        alpha: any_alpha(random),
        volume: any_volume(random),
        arrays: Arrays {
            samples: Vec::new(),
            coefficients,
            increments,
            taps: lengths.map(|length| kind(length, random)).collect(),
        },
    };
    let excitation = any_kind(&EXCITATIONS, random)(samples, random);
    cut(&mut Sides::at(ours, &request), tally, &excitation, random);
}

/// Turns the samples by stretches cut anywhere, into empty parts too; no samples by one stretch.
fn cut(sides: &mut Sides, tally: &mut Tally, mut samples: &[f64], random: &mut Generator) {
    loop {
        let (part, rest) = samples.split_at(random.below(samples.len() as u64 + 1) as usize);
        sides.stretch(tally, part);
        samples = rest;
        if samples.is_empty() {
            return;
        }
    }
}
