//! Random values of every kind for the excitation: floats, filter taps, periods, states.

use crate::excitation_structs::{Pulse, Random};
use crate::float_patterns::subnormal;
use crate::generator::Generator;
use crate::stretches::State;

/// Floats at which something could go another way: for pitches, counters, increments and taps.
pub const SPECIALS: [f64; 18] = [
    0.0,
    -0.0,
    f64::NAN,
    f64::INFINITY,
    f64::NEG_INFINITY,
    5e-324,
    -5e-324,
    f64::MIN_POSITIVE,
    0.5,
    1.0,
    -1.0,
    2.0,
    3.0,
    -3.0,
    9_007_199_254_740_992.0,
    -1e300,
    f64::MAX,
    f64::MIN,
];

/// A float of any kind: special, small and whole, subnormal, of a voice's size, or any pattern at all.
pub fn any_float(random: &mut Generator) -> f64 {
    match random.below(5) {
        0 => SPECIALS[random.below(SPECIALS.len() as u64) as usize],
        1 => random.below(41) as f64 - 20.0,
        2 => f64::from_bits(subnormal(random)),
        3 => around_zero(random),
        _ => f64::from_bits(random.word()),
    }
}

/// One in so many floats is of any kind: none of them.
pub const NEVER: u64 = u64::MAX;

/// A number in [-1, 1).
pub fn around_zero(random: &mut Generator) -> f64 {
    2.0 * random.unit() - 1.0
}

/// From 2 to 1000 samples; one in sixteen of any kind.
pub fn any_period(random: &mut Generator) -> f64 {
    if random.below(16) == 0 {
        any_float(random)
    } else {
        2.0 + 998.0 * random.unit()
    }
}

/// As many floats, of a voice's size but for one in so many, which is of any kind.
pub fn floats(count: usize, one_in: u64, random: &mut Generator) -> Vec<f64> {
    let mut float = || match random.below(one_in) {
        0 => any_float(random),
        _ => around_zero(random),
    };
    (0..count).map(|_| float()).collect()
}

/// Noise with any number of its values taken, now and then a number beyond 64.
pub fn any_noise(one_in: u64, random: &mut Generator) -> Random {
    let queue = floats(64, one_in, random).try_into();
    Random {
        next: random.word(),
        used: match random.below(16) {
            0 => random.word() as usize,
            _ => random.below(65) as usize,
        },
        queue: queue.expect("64 values"),
    }
}

pub fn any_pulse(random: &mut Generator) -> Pulse {
    Pulse {
        pitch: any_float(random),
        counter: any_float(random),
        increment: any_float(random),
        end_pitch: any_float(random),
    }
}

pub fn any_state(nlpf: usize, one_in: u64, random: &mut Generator) -> State {
    State {
        pulse: any_pulse(random),
        random: any_noise(one_in, random),
        line: floats(nlpf, one_in, random),
    }
}
