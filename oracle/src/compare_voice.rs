//! Our voices against the Rust's `synthesize`, whose functions are answered by ours: numbers, samples, buffers and whole
//! voices, bit for bit, all NaNs taken as one.

use crate::compare_rest::any_voices;
use crate::compare_rest_cuts::{many_cuts, streams};
use crate::compare_rest_damage::damaged;
use crate::compare_voice_open::{limits, near_limits};
use crate::compare_voice_states::{idle, meters, states};
use crate::frames::{FrameSet, Settings, announcement};
use crate::generator::Generator;
use crate::ours::{Ours, SLOTS};
use crate::remembered::Remembered;
use crate::routes;
use crate::voice_frames::frames;
use crate::voice_sides::{Functions, Sides};
use crate::voice_speaker::{Speaker, speak};
use crate::voice_structs::Configuration;
use crate::voice_tally::Tally;
use crate::voice_values::configurations;
use pinned::constants::{MAX_LF0, MIN_LF0, NODATA};
use std::cell::RefCell;
use std::path::Path;
use std::rc::Rc;

/// The numbers that must come up, by the calls that answer them.
const GIVES: &[u64] = &[0, 3, 4, 5, 6, 7, 9];
const WHOLES: &[u64] = &[0, 3, 4, 5, 6, 7, 9, 14];
const DRAWS: &[u64] = &[0, 10];

/// The most frames of a voice, and the samples that are about enough.
const MOST_FRAMES: usize = 24;
const ENOUGH: usize = 6_000;

pub fn run(ours: &Rc<RefCell<Ours>>, seed: u64, folder: Option<&Path>) -> Result<bool, String> {
    let functions = Functions {
        voices: Rc::clone(ours),
        remembered: Remembered::new(ours),
    };
    routes::answer_by(&functions.remembered.answerer());
    let random = &mut Generator::new(seed);
    let mut good = true;
    for part in [limits, near_limits, idle, meters, states, spoken] {
        good &= part(&functions, random);
    }
    for set in folder.map_or(Ok(Vec::new()), announcement)? {
        good &= announced(&functions, set, random);
    }
    for part in [any_voices, streams, many_cuts, damaged] {
        good &= part(&functions, &mut Generator::new(seed));
    }
    Ok(good)
}

/// Voices across every limit, four at a time; of four voices three are tame.
fn spoken(functions: &Functions, random: &mut Generator) -> bool {
    let mut tally = Tally::new("across the limits");
    for group in configurations(random).chunks(SLOTS) {
        let mut speakers = Vec::new();
        for (slot, configuration) in group.iter().enumerate() {
            let count = (ENOUGH / configuration.fperiod).clamp(2, MOST_FRAMES);
            let frames = frames(count, configuration, random.below(4) > 0, random);
            let sides = Sides::open(functions, slot, *configuration, &mut tally);
            speakers.push(Speaker::new(sides, frames));
        }
        speak(speakers, &mut tally, random);
    }
    let met = tally.has_met(&[("give", GIVES), ("whole frame", WHOLES), ("draw", DRAWS)]);
    let fair = tally.is_fair();
    tally.finish() && met && fair
}

/// The real announcement.
fn announced(functions: &Functions, set: FrameSet, random: &mut Generator) -> bool {
    let mut tally = Tally::new(&set.name);
    let sides = Sides::open(functions, 0, configuration(&set.settings), &mut tally);
    speak(vec![Speaker::new(sides, set.frames)], &mut tally, random);
    let met = tally.has_met(&[("give", &[0]), ("whole frame", &[0]), ("draw", DRAWS)]);
    tally.finish() && met
}

/// With the Rust's own ends and its no-data number.
fn configuration(settings: &Settings) -> Configuration {
    Configuration {
        nmcp: settings.nmcp,
        nlpf: settings.nlpf,
        stage: settings.stage as u64,
        log_gain: settings.log_gain,
        rate: settings.rate as u64,
        alpha: settings.alpha,
        beta: settings.beta,
        volume: settings.volume,
        fperiod: settings.fperiod,
        nodata: NODATA,
        low: MIN_LF0,
        high: MAX_LF0,
    }
}
