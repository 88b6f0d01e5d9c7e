//! The excitation, frame by frame: ours by one call a frame, the Rust's by one a sample.

use crate::cases::Case;
use crate::excitation::Excitation;
use crate::frames::{FRAME, FRAMES};
use crate::generator::Generator;
use crate::shim;
use crate::variants::{Variant, Ways, floats, with_bits};

/// The period of a voiced frame in samples; an unvoiced one has 0.
const PERIOD: f64 = 200.0;

/// The noise is as far from the Rust's as ln is, and where it cancels on the line, further.
const STEPS: u64 = 1 << 20;

const WAYS: Ways = [
    Variant {
        name: "ours",
        pass: ours,
    },
    Variant {
        name: "Rust, called",
        pass: |lpf, period| rusts(lpf, period, rust_get),
    },
    Variant {
        name: "Rust, inlined",
        pass: |lpf, period| rusts(lpf, period, |excitation, lpf| excitation.get(lpf)),
    },
];

/// With 31 filter taps and with none, voiced and unvoiced.
pub fn all(random: &mut Generator) -> Vec<Case> {
    let mut cases = Vec::new();
    for nlpf in [31, 0] {
        for (set, period) in [("voiced", PERIOD), ("unvoiced", 0.0)] {
            cases.push(Case {
                function: "excitation",
                set: format!("nlpf {nlpf}, {set}"),
                left: (0..nlpf).map(|_| random.unit().to_bits()).collect(),
                right: vec![period.to_bits()],
                count: FRAME * FRAMES,
                variants: WAYS,
                steps: STEPS,
            });
        }
    }
    cases
}

fn ours(lpf: &[u64], period: &[u64]) -> u64 {
    let (lpf, period) = (floats(lpf), f64::from_bits(period[0]));
    let mut excitation = shim::Excitation::new(lpf.len());
    let mut samples = [0.0; FRAME];
    (0..FRAMES).fold(0, |sum, _| {
        excitation.frame(period, &lpf, &mut samples);
        with_bits(sum, &samples)
    })
}

fn rusts(lpf: &[u64], period: &[u64], get: impl Fn(&mut Excitation, &[f64]) -> f64) -> u64 {
    let (lpf, period) = (floats(lpf), f64::from_bits(period[0]));
    let mut excitation = Excitation::new(lpf.len());
    let mut samples = [0.0; FRAME];
    (0..FRAMES).fold(0, |sum, _| {
        excitation.start(period, FRAME);
        samples.fill_with(|| get(&mut excitation, &lpf));
        excitation.end(period);
        with_bits(sum, &samples)
    })
}

#[inline(never)]
fn rust_get(excitation: &mut Excitation, lpf: &[f64]) -> f64 {
    excitation.get(lpf)
}
