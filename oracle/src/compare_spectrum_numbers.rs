//! Three parts of the spectra's comparison, in which the numbers that our calls answer are known beforehand.

use crate::generator::Generator;
use crate::ours::Ours;
use crate::pairs_values::{REFUSED_AS_FIRST, rising};
use crate::rusts_spectrum;
use crate::spectrum::{DONE, LIMIT, OUTSIDE, Outcome, Request, Step};
use crate::spectrum_cases::{FAMILIES, request};
use crate::spectrum_tally::Tally;
use std::cell::RefCell;

/// A length or the stage past its limit: 1, and nothing is written.
pub fn limits(ours: &RefCell<Ours>, random: &mut Generator) -> bool {
    let mut tally = Tally::new("past a limit");
    for family in FAMILIES {
        for request in past_limits(family.step, random) {
            let right = Outcome {
                number: LIMIT,
                arrays: request.arrays.clone(),
            };
            let own = ours.borrow_mut().spectrum(&request);
            tally.compare(&request, &own, &right);
        }
    }
    tally.finish()
}

/// Calls that keep every limit but one.
fn past_limits(step: Step, random: &mut Generator) -> Vec<Request> {
    let (least, most) = step.entries().into_inner();
    let right = 5.clamp(least, most);
    let good = request(step, right, rising, random);
    let entries = [0, least - 1, most + 1].map(|wrong| step.lengths(wrong));
    let mut requests = Vec::new();
    for lengths in entries.into_iter().chain(unequal(step, right)) {
        let mut wrong = good.clone();
        for (array, length) in wrong.arrays.iter_mut().zip(lengths) {
            array.resize(length, 0.5);
        }
        requests.push(wrong);
    }
    if step.takes_stage() {
        for stage in [0, 9, u64::MAX] {
            requests.push(Request {
                stage,
                ..good.clone()
            });
        }
    }
    requests
}

/// Lengths of which the second or the third is not what the first asks for.
fn unequal(step: Step, entries: usize) -> Vec<[usize; 3]> {
    let right = step.lengths(entries);
    let mut all = Vec::new();
    for place in [1, 2].into_iter().filter(|&place| right[place] > 0) {
        let shorter = (step != Step::Gc2gc).then_some(right[place] - 1);
        for wrong in [0, right[place] + 1].into_iter().chain(shorter) {
            let mut lengths = right;
            lengths[place] = wrong;
            all.push(lengths);
        }
    }
    all
}

/// Entries 1, 2 and 3 equal, beta above 0: the postfilter makes entry 2 a NaN, so that cos is outside.
pub fn equal_pairs(ours: &RefCell<Ours>, random: &mut Generator) -> bool {
    let mut tally = Tally::new("entries 1, 2 and 3 equal");
    for entries in 4..=64 {
        for stage in 1..=8 {
            for beta in [1e-3, 0.3, 1.0] {
                let mut request = request(Step::PrepareLsp, entries, rising, random);
                (request.stage, request.beta) = (stage, beta);
                request.arrays[0][1..4].fill(4.0 * random.unit());
                known(OUTSIDE, &request, ours, &mut tally);
            }
        }
    }
    tally.finish()
}

/// Pairs that are outside before they are repaired and inside after: 9 as a first frame, 0 as a later one.
pub fn first_frames(ours: &RefCell<Ours>, random: &mut Generator) -> bool {
    let mut equal = true;
    for (alpha, pairs) in REFUSED_AS_FIRST {
        let mut tally = Tally::new(&format!(
            "{pairs:?}, alpha {alpha}, as first frame and as later"
        ));
        for stage in 1..=8 {
            for (first, number) in [(true, OUTSIDE), (false, DONE)] {
                let mut request = request(Step::PrepareLsp, pairs.len(), rising, random);
                (request.alpha, request.beta) = (alpha, 0.0);
                (request.stage, request.first) = (stage, first);
                request.arrays[0] = pairs.to_vec();
                known(number, &request, ours, &mut tally);
            }
        }
        equal &= tally.finish();
    }
    equal
}

/// Compares a call of ours with the Rust's, and holds both to the number that is known.
fn known(number: u64, request: &Request, ours: &RefCell<Ours>, tally: &mut Tally) {
    let own = ours.borrow_mut().spectrum(request);
    let right = Outcome {
        number,
        ..rusts_spectrum::outcome(request)
    };
    tally.compare(request, &own, &right);
}
