//! Our excitation against the Rust's own, whose ln is answered by ours: samples and states, bit for
//! bit, all NaNs taken as one.

use crate::answerers::our_own;
use crate::compare_excitation_states::{starts_and_ends, states};
use crate::excitation_sides::Sides;
use crate::excitation_tally::Tally;
use crate::excitation_values::*;
use crate::generator::Generator;
use crate::ours::Ours;
use crate::routes;
use crate::stretches::State;
use std::cell::RefCell;
use std::rc::Rc;

/// Compares under one name.
type Part = fn(&RefCell<Ours>, &mut Tally, &mut Generator);

const PARTS: [(&str, Part); 4] = [
    ("excitation, noise", noise),
    ("excitation, frames", frames),
    ("excitation, states", states),
    ("excitation, start and end", starts_and_ends),
];

pub fn run(ours: &Rc<RefCell<Ours>>, seed: u64) -> bool {
    routes::answer_by(&our_own(Rc::clone(ours)));
    let mut random = Generator::new(seed);
    let mut equal = true;
    for (name, part) in PARTS {
        let mut tally = Tally::new(name);
        part(ours, &mut tally, &mut random);
        equal &= tally.finish();
    }
    equal
}

/// The noise alone: on and on from the fresh state, in stretches of all lengths, then from any state.
fn noise(ours: &RefCell<Ours>, tally: &mut Tally, random: &mut Generator) {
    let mut sides = Sides::fresh(ours, 0);
    for _ in 0..1_800 {
        sides.stretch(tally, random.below(1_201) as usize, &[]);
    }
    for _ in 0..4_000 {
        let mut state = State::fresh(0);
        state.random = any_noise(8, random);
        let mut sides = Sides::at(ours, state, 0);
        sides.stretch(tally, random.below(201) as usize, &[]);
    }
}

/// Voices of twenty frames, from the fresh state on.
fn frames(ours: &RefCell<Ours>, tally: &mut Tally, random: &mut Generator) {
    for nlpf in [0, 1, 2, 31, 63, 64] {
        for _ in 0..100 {
            let mut sides = Sides::fresh(ours, nlpf);
            for _ in 0..20 {
                frame(&mut sides, tally, &floats(nlpf, 1_000, random), random);
            }
        }
    }
}

/// A frame, one in three unvoiced, whose stretch is cut anywhere, into empty parts too.
fn frame(sides: &mut Sides, tally: &mut Tally, lpf: &[f64], random: &mut Generator) {
    let fperiod = 1 + random.below(400);
    sides.start(tally, random.below(3) > 0, any_period(random), fperiod);
    let mut left = fperiod;
    while left > 0 {
        let part = random.below(left + 1);
        sides.stretch(tally, part as usize, lpf);
        left -= part;
    }
    sides.end(tally);
}
