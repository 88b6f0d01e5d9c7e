//! Our wrapping multiply and add against u64's.

use crate::comparison::{Comparison, Subject};
use crate::generator::Generator;
use crate::ours::{Operation, Ours};

const PAIRS: u64 = 10_000_000;

/// The ends of the halves and of the whole word, and the neighbours of the middle.
const EDGES: [u64; 10] = [
    0,
    1,
    2,
    (1 << 32) - 1,
    1 << 32,
    (1 << 32) + 1,
    (1 << 63) - 1,
    1 << 63,
    u64::MAX - 1,
    u64::MAX,
];

/// The noise of the vocoder multiplies by the first and adds the second.
const NOISE: [u64; 2] = [1_103_515_245, 12_345];

pub fn run(ours: &mut Ours, seed: u64) -> bool {
    let multiply = Subject {
        name: "wrapping_mul",
        unit: "pairs",
        operation: Operation::Multiply,
        expected: |input| input[0].wrapping_mul(input[1]),
        read: |answer| answer,
    };
    let add = Subject {
        name: "wrapping_add",
        unit: "pairs",
        operation: Operation::Add,
        expected: |input| input[0].wrapping_add(input[1]),
        read: |answer| answer,
    };
    let multiply_equal = over_pairs(multiply, ours, seed);
    let add_equal = over_pairs(add, ours, seed);
    multiply_equal && add_equal
}

fn over_pairs(subject: Subject, ours: &mut Ours, seed: u64) -> bool {
    let mut comparison = Comparison::new(subject, ours);
    let mut random = Generator::new(seed);
    edge_pairs(&mut comparison);
    noise_steps(&mut comparison);
    for _ in 0..PAIRS / 2 {
        comparison.pair(random.word(), random.word());
        let (a, b) = (any_length(&mut random), any_length(&mut random));
        comparison.pair(a, b);
    }
    comparison.finish()
}

/// Every two of the edges and the noise constants.
fn edge_pairs(comparison: &mut Comparison) {
    let all: Vec<u64> = EDGES.into_iter().chain(NOISE).collect();
    for &a in &all {
        for &b in &all {
            comparison.pair(a, b);
        }
    }
}

/// The inputs that the noise itself makes, from its first state on.
fn noise_steps(comparison: &mut Comparison) {
    let mut state: u64 = 1;
    for _ in 0..100_000 {
        comparison.pair(state, NOISE[0]);
        let product = state.wrapping_mul(NOISE[0]);
        comparison.pair(product, NOISE[1]);
        state = product.wrapping_add(NOISE[1]);
    }
}

/// A random word of random length, so that short factors and carries at every place come up.
fn any_length(random: &mut Generator) -> u64 {
    let shift = random.below(64);
    random.word() >> shift
}
