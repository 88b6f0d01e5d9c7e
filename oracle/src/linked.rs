//! Our functions as they are linked in: those of libexports.a, and the filters on copies of a call's arrays.

use crate::excitation_calls;
use crate::filter::{self, Filter};
use crate::filter_calls::{self, Stretch};
use crate::ours::Operation;
use crate::stretches::{Outcome, Request, State};

#[link(name = "exports", kind = "static")]
unsafe extern "C" {
    safe fn kipawnore_sqrt(x: f64) -> f64;
    safe fn kipawnore_wrapping_mul(a: u64, b: u64) -> u64;
    safe fn kipawnore_wrapping_add(a: u64, b: u64) -> u64;
    safe fn kipawnore_bits_of(x: f64) -> u64;
    safe fn kipawnore_float_of(b: u64) -> f64;
    safe fn kipawnore_exp(x: f64) -> f64;
    safe fn kipawnore_ln(x: f64) -> f64;
    safe fn kipawnore_cos(x: f64) -> f64;
    safe fn kipawnore_inverse_power(a: f64, s: u64) -> f64;
    safe fn kipawnore_inverse_root(a: f64, s: u64) -> f64;
}

pub fn answer(operation: Operation, input: &[u64]) -> u64 {
    let x = f64::from_bits(input[0]);
    match operation {
        Operation::Sqrt => kipawnore_sqrt(x).to_bits(),
        Operation::Multiply => kipawnore_wrapping_mul(input[0], input[1]),
        Operation::Add => kipawnore_wrapping_add(input[0], input[1]),
        Operation::FloatOf => kipawnore_float_of(input[0]).to_bits(),
        Operation::BitsOf => kipawnore_bits_of(x),
        Operation::RoundTrip => kipawnore_bits_of(kipawnore_float_of(input[0])),
        Operation::Exp => kipawnore_exp(x).to_bits(),
        Operation::Ln => kipawnore_ln(x).to_bits(),
        Operation::Cos => kipawnore_cos(x).to_bits(),
        Operation::InversePower => kipawnore_inverse_power(x, input[1]).to_bits(),
        Operation::InverseRoot => kipawnore_inverse_root(x, input[1]).to_bits(),
    }
}

pub fn stretch(request: &Request) -> Outcome {
    let Request { count, state, lpf } = request;
    let mut line = state.line.clone();
    let mut samples = vec![0.0; *count];
    let after = excitation_calls::stretch(state.pulse, state.random, &mut line, lpf, &mut samples);
    Outcome {
        made: after.made,
        samples,
        state: State {
            pulse: after.pulse,
            random: after.random,
            line,
        },
    }
}

pub fn filter(request: &filter::Request) -> filter::Outcome {
    let mut arrays = request.arrays.clone();
    let stretch = Stretch {
        samples: &mut arrays.samples,
        coefficients: &mut arrays.coefficients,
        increments: &arrays.increments,
        alpha: request.alpha,
        volume: request.volume,
    };
    let number = match (request.filter, &mut arrays.taps[..]) {
        (Filter::Mlsa, [d11, d12, d22, d21]) => filter_calls::mlsa(stretch, [d11, d12, d22, d21]),
        (Filter::Mglsa { stages }, [d]) => filter_calls::mglsa(stretch, stages, d),
        (_, taps) => panic!("{} arrays of taps", taps.len()),
    };
    filter::Outcome { number, arrays }
}
