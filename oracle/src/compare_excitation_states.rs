//! Two parts of the excitation's comparison: states that no frame leads to, and start and end alone.

use crate::excitation_sides::Sides;
use crate::excitation_structs::Pulse;
use crate::excitation_tally::Tally;
use crate::excitation_values::*;
use crate::generator::Generator;
use crate::ours::Ours;
use crate::stretches::State;
use std::cell::RefCell;

/// Lengths of a frame: at both ends of what is exact, and beyond.
const FPERIODS: [u64; 10] = [
    0,
    1,
    2,
    80,
    240,
    4_800,
    (1 << 53) - 1,
    1 << 53,
    (1 << 53) + 2,
    u64::MAX,
];

/// Pitches that step through zero, special pulse trains, and states of any values.
pub fn states(ours: &RefCell<Ours>, tally: &mut Tally, random: &mut Generator) {
    for pulse in through_zero() {
        for nlpf in [0, 1, 31] {
            let state = with_pulse(pulse, nlpf, random);
            stretch_from(ours, tally, state, 60, random);
        }
    }
    for pulse in special_pulses() {
        for nlpf in [0, 3] {
            let state = with_pulse(pulse, nlpf, random);
            stretch_from(ours, tally, state, 8, random);
        }
    }
    for _ in 0..20_000 {
        let one_in = 1 << random.below(10);
        let state = any_state(random.below(65) as usize, one_in, random);
        stretch_from(ours, tally, state, random.below(101) as usize, random);
    }
}

/// A stretch from a state, the Rust's ring turned by any number of places.
fn stretch_from(
    ours: &RefCell<Ours>,
    tally: &mut Tally,
    state: State,
    count: usize,
    random: &mut Generator,
) {
    let nlpf = state.line.len();
    let index = random.below(nlpf.max(1) as u64) as usize;
    let lpf = floats(nlpf, 1 << random.below(10), random);
    Sides::at(ours, state, index).stretch(tally, count, &lpf);
}

fn with_pulse(pulse: Pulse, nlpf: usize, random: &mut Generator) -> State {
    State {
        pulse,
        ..any_state(nlpf, 1_000, random)
    }
}

fn pulse(pitch: f64, counter: f64, increment: f64) -> Pulse {
    Pulse {
        pitch,
        counter,
        increment,
        end_pitch: pitch,
    }
}

/// Pitches that come to exactly zero from either side after 1 to 40 samples, and those that begin there:
/// at zero the increment is not added.
fn through_zero() -> Vec<Pulse> {
    let mut pulses = Vec::new();
    for step in [1.0, 0.5, 0.375, -1.0, -0.25] {
        for samples in 0..=40 {
            let pitch = step * f64::from(samples);
            pulses.extend([0.0, 1.5, pitch].map(|counter| pulse(pitch, counter, -step)));
        }
    }
    pulses
}

/// Every pitch, counter and increment of the special floats.
fn special_pulses() -> Vec<Pulse> {
    let pitches = SPECIALS.into_iter();
    let with_counters = pitches.flat_map(|pitch| SPECIALS.map(|counter| (pitch, counter)));
    with_counters
        .flat_map(|(pitch, counter)| SPECIALS.map(|increment| pulse(pitch, counter, increment)))
        .collect()
}

/// `start` and then `end`: every two special pitches with every length, then any values.
pub fn starts_and_ends(ours: &RefCell<Ours>, tally: &mut Tally, random: &mut Generator) {
    for pitch in SPECIALS {
        for period in SPECIALS {
            for fperiod in FPERIODS {
                for voiced in [true, false] {
                    let pulse = pulse(pitch, any_float(random), any_float(random));
                    start_and_end(ours, tally, pulse, (voiced, period, fperiod));
                }
            }
        }
    }
    for _ in 0..100_000 {
        let fperiod = random.word() >> random.below(64);
        let frame = (random.below(4) > 0, any_float(random), fperiod);
        start_and_end(ours, tally, any_pulse(random), frame);
    }
}

fn start_and_end(
    ours: &RefCell<Ours>,
    tally: &mut Tally,
    pulse: Pulse,
    (voiced, period, fperiod): (bool, f64, u64),
) {
    let state = State {
        pulse,
        ..State::fresh(0)
    };
    let mut sides = Sides::at(ours, state, 0);
    sides.start(tally, voiced, period, fperiod);
    sides.end(tally);
}
