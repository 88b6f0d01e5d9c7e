//! The fixed list of the excitation for a proved program: the stretches that are asked for, and what
//! the Rust makes of them, in words of 16 hex digits.

use crate::answerers::our_own;
use crate::excitation_structs::{Pulse, Random};
use crate::excitation_values::{NEVER, any_noise, floats};
use crate::generator::Generator;
use crate::hex_words::{print_list, print_words, read_words};
use crate::ours::Ours;
use crate::routes;
use crate::rusts_excitation::Rusts;
use crate::stretches::{Request, State};
use std::cell::RefCell;
use std::rc::Rc;

/// The list never changes by itself: its random values come from this seed.
const LIST_SEED: u64 = 1;

/// nlpf; how many samples; how many values of the noise are taken; pitch, counter, increment. Of the 64
/// values, those taken and the samples say whether a filling comes at once, within, or not at all.
type Case = (usize, usize, usize, [f64; 3]);

const UNVOICED: [f64; 3] = [0.0; 3];

/// With line, taps and noise of a voice's size.
const PLAIN: [Case; 17] = [
    (0, 0, 64, UNVOICED),
    (0, 40, 40, UNVOICED),
    (0, 40, 64, [6.5, 2.25, -0.0625]),
    // The pitch comes to zero from above and from below, and stands at zero beside an increment.
    (0, 12, 63, [3.0, 0.0, -1.0]),
    (0, 20, 0, [-2.5, 1.0, 0.25]),
    (0, 6, 60, [0.0, 3.0, 1.5]),
    (0, 6, 64, [f64::NAN, 2.0, 0.0]),
    (1, 5, 64, UNVOICED),
    (1, 20, 63, [5.5, 0.5, 0.0078125]),
    (1, 6, 61, [-8.0, -9.0, 4.0]),
    (2, 40, 30, [9.0, 8.0, 0.125]),
    (31, 40, 0, UNVOICED),
    (31, 40, 50, [30.0, 21.5, -0.03125]),
    (31, 33, 64, [4.0, 0.0, -0.5]),
    (63, 1, 63, UNVOICED),
    (63, 40, 64, [25.0, 24.0, 0.5]),
    (64, 40, 24, [12.75, 0.0, 0.0]),
];

/// With floats of any kind among line, taps and noise, an infinity on the line and a NaN at its far end.
const ODD: [Case; 3] = [
    (2, 9, 0, [-0.0, f64::INFINITY, -1.0]),
    (31, 36, 60, [5e-324, -3.0, 2.5]),
    (64, 10, 59, [f64::NAN, -9.0, 1.0]),
];

/// Prints the stretches, each as `Request::words` has it.
pub fn print_requests() {
    let mut random = Generator::new(LIST_SEED);
    // The pulses 2, 0, 0, 2, 0, 0, 0, 2, and the first noise there is.
    let mut requests = vec![fresh(8, [4.0, 4.0, 0.0]), fresh(40, UNVOICED)];
    requests.extend(PLAIN.map(|case| request(case, NEVER, &mut random)));
    requests.extend(ODD.map(|case| odd(request(case, 8, &mut random))));
    let words: Vec<u64> = requests.iter().flat_map(Request::words).collect();
    print_list(&words);
}

fn fresh(count: usize, pulse: [f64; 3]) -> Request {
    Request {
        count,
        state: State {
            pulse: pulse_with_end(pulse, pulse[0]),
            ..State::fresh(0)
        },
        lpf: Vec::new(),
    }
}

/// With random values, of which one in so many is of any kind.
fn request((nlpf, count, used, pulse): Case, one_in: u64, random: &mut Generator) -> Request {
    let end_pitch = 2.0 + 998.0 * random.unit();
    Request {
        count,
        state: State {
            pulse: pulse_with_end(pulse, end_pitch),
            random: Random {
                used,
                ..any_noise(one_in, random)
            },
            line: floats(nlpf, one_in, random),
        },
        lpf: floats(nlpf, one_in, random),
    }
}

fn odd(mut request: Request) -> Request {
    let line = &mut request.state.line;
    let far_end = line.len() - 1;
    line[far_end / 3] = f64::NEG_INFINITY;
    line[far_end] = f64::NAN;
    request
}

fn pulse_with_end([pitch, counter, increment]: [f64; 3], end_pitch: f64) -> Pulse {
    Pulse {
        pitch,
        counter,
        increment,
        end_pitch,
    }
}

/// Reads such stretches and prints what the Rust, with our ln, makes of each, as `Outcome::words` has it.
pub fn print_outcomes(ours: Rc<RefCell<Ours>>) -> Result<(), String> {
    routes::answer_by(&our_own(ours));
    let mut words = read_words()?.into_iter().peekable();
    while words.peek().is_some() {
        let Request { count, state, lpf } =
            Request::read(&mut words).ok_or("the last stretch is cut short")?;
        print_words(&Rusts::at(&state, 0).stretch(count, &lpf).words());
    }
    Ok(())
}
