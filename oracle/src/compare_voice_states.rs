//! Voices that are handed in with any values: such as break restore's rules, with a meter near its end, and in states that no
//! frame leads to.

use crate::generator::Generator;
use crate::ours::SLOTS;
use crate::rest_records::MOST_BYTES;
use crate::spectrum::OUTSIDE;
use crate::voice::Call;
use crate::voice_frames::{buffer, frames};
use crate::voice_numbers::{IDLE, LEFT, METER, MOST_METER, NOTHING_LEFT, is_idle};
use crate::voice_sides::{Functions, Sides};
use crate::voice_speaker::{Speaker, speak};
use crate::voice_structs::{Configuration, Voice};
use crate::voice_tally::Tally;
use crate::voice_values::{any_configuration, any_voice};

/// So many voices break each rule, have each meter, are in any state.
const BROKEN: usize = 40;
const COUNTED: usize = 8;
const STATES: usize = 1_000;

/// Each breaks a rule of a voice that keeps them; a frame is of two samples or more.
type Break = fn(&mut Voice);

const RULES: [Break; 9] = [
    |voice| voice.random.used = 65,
    |voice| voice.random.used = usize::MAX,
    |voice| voice.left = usize::MAX,
    |voice| voice.meter += 1,
    // One more than a frame is left, though the sum is a multiple.
    |voice| {
        voice.left = voice.configuration.fperiod + 1;
        voice.meter = 3 * voice.configuration.fperiod as u64 - 1;
    },
    // The sum is a multiple, but beyond, or beyond 64 bits and then 0.
    |voice| {
        voice.left = 0;
        voice.meter = (MOST_METER / voice.configuration.fperiod as u64 + 1)
            * voice.configuration.fperiod as u64;
    },
    |voice| {
        voice.left = 1;
        voice.meter = u64::MAX;
    },
    // A first frame is to come, but one is counted, or left.
    |voice| {
        voice.first = true;
        voice.left = 0;
        voice.meter = voice.configuration.fperiod as u64;
    },
    |voice| {
        voice.first = true;
        voice.left = voice.configuration.fperiod;
        voice.meter = 0;
    },
];

/// The same for the limits of a configuration.
const LIMITS: [Break; 18] = [
    |voice| voice.configuration.nmcp = 1,
    |voice| voice.configuration.nmcp = 65,
    |voice| voice.configuration.nlpf = 65,
    |voice| voice.configuration.stage = 9,
    |voice| voice.configuration.rate = 0,
    |voice| voice.configuration.rate = 192_001,
    |voice| voice.configuration.alpha = 1.0,
    |voice| voice.configuration.alpha = f64::NAN,
    |voice| voice.configuration.beta = -5e-324,
    |voice| voice.configuration.beta = f64::NAN,
    |voice| voice.configuration.volume = f64::INFINITY,
    |voice| voice.configuration.fperiod = 0,
    |voice| voice.configuration.fperiod = usize::MAX,
    |voice| voice.configuration.nodata = f64::NAN,
    |voice| voice.configuration.low = f64::NAN,
    |voice| voice.configuration.low = voice.configuration.high.next_up(),
    |voice| voice.configuration.high = 20.0_f64.next_up(),
    |voice| voice.configuration.high = -21.0,
];

/// Voices that break a rule: 2 from every call, and they stay as they are.
pub fn idle(functions: &Functions, random: &mut Generator) -> bool {
    let mut tally = Tally::new("rules broken");
    for rule in RULES.into_iter().chain(LIMITS) {
        for _ in 0..BROKEN {
            let configuration = short_frames(random);
            let mut voice = any_voice(configuration, random);
            while voice.first {
                voice = any_voice(configuration, random);
            }
            rule(&mut voice);
            assert!(is_idle(&voice), "no rule is broken");
            let sides = Sides::at(functions, 0, &voice, &mut tally);
            every_call(sides, &configuration, &mut tally, random);
        }
    }
    let all: &[u64] = &[IDLE];
    let calls = ["give", "whole frame", "draw", "save"];
    let met = tally.has_met(&calls.map(|call| (call, all)));
    tally.finish() && met
}

/// A give, a draw and a whole frame that would do for the configuration, and two saves, into room for any voice and into none.
fn every_call(
    mut sides: Sides,
    configuration: &Configuration,
    tally: &mut Tally,
    random: &mut Generator,
) {
    let mut frames = frames(2, configuration, true, random);
    let mut room = || buffer(configuration.fperiod, random);
    let ((first, start), (second, second_start)) = (room(), room());
    sides.call(tally, &Call::give(frames.remove(0)));
    sides.call(tally, &Call::draw(first, start));
    sides.call(
        tally,
        &Call::whole_frame(frames.remove(0), second, second_start),
    );
    sides.save(tally, MOST_BYTES);
    sides.save(tally, 0);
}

/// Voices whose meter stands a few frames before the last one that it can count, or at it: then 8.
pub fn meters(functions: &Functions, random: &mut Generator) -> bool {
    let mut tally = Tally::new("meters near the end");
    for fperiod in [1, 2, 7, 80, 4_799, 4_800] {
        for before in [0, 1, 2] {
            for _ in 0..COUNTED {
                let configuration = Configuration {
                    fperiod,
                    ..any_configuration(random)
                };
                let mut voice = any_voice(configuration, random);
                (voice.first, voice.left) = (false, 0);
                voice.meter = (MOST_METER / fperiod as u64 - before) * fperiod as u64;
                let sides = Sides::at(functions, 0, &voice, &mut tally);
                let frames = frames(4, &configuration, true, random);
                speak(vec![Speaker::new(sides, frames)], &mut tally, random);
            }
        }
    }
    let met = tally.has_met(&[
        ("give", &[0, METER]),
        ("whole frame", &[0, METER]),
        ("draw", &[0, NOTHING_LEFT]),
    ]);
    tally.finish() && met
}

/// Voices of any values that keep the rules, in the middle of a frame too.
pub fn states(functions: &Functions, random: &mut Generator) -> bool {
    let mut tally = Tally::new("any state");
    for _ in 0..STATES / SLOTS {
        let mut speakers = Vec::new();
        for slot in 0..SLOTS {
            let configuration = short_frames(random);
            let voice = any_voice(configuration, random);
            let sides = Sides::at(functions, slot, &voice, &mut tally);
            let tame = random.below(2) == 0;
            speakers.push(Speaker::new(sides, frames(3, &configuration, tame, random)));
        }
        speak(speakers, &mut tally, random);
    }
    let met = tally.has_met(&[
        ("give", &[0, LEFT, OUTSIDE]),
        ("whole frame", &[0, LEFT, OUTSIDE]),
        ("draw", &[0]),
    ]);
    tally.finish() && met
}

/// Any configuration with frames of 2 to 101 samples.
fn short_frames(random: &mut Generator) -> Configuration {
    Configuration {
        fperiod: 2 + random.below(100) as usize,
        ..any_configuration(random)
    }
}
