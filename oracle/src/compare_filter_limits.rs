//! The filters' calls past a limit: number 1, and nothing is written.

use crate::filter::{Arrays, Filter, Outcome, Request};
use crate::filter_tally::Tally;
use crate::filter_values::plain;
use crate::generator::Generator;
use crate::ours::Ours;
use crate::spectrum::LIMIT;
use std::cell::RefCell;

/// Stages past the limit, the last of which a product of 64 bits takes for 1 where nmcp is even.
const WRONG_STAGES: [u64; 4] = [0, 9, u64::MAX, (1 << 63) + 1];

const SAMPLES: usize = 7;

pub fn limits(ours: &RefCell<Ours>, random: &mut Generator) -> bool {
    let mut tally = Tally::new("past a limit");
    let filters = (0..=8).map(Filter::of_stage);
    let mut requests: Vec<Request> = filters
        .flat_map(|filter| wrong_lengths(filter, random))
        .collect();
    requests.extend(wrong_stages(random));
    for request in requests {
        let right = Outcome {
            number: LIMIT,
            arrays: request.arrays.clone(),
        };
        let own = ours.borrow_mut().filter(&request);
        tally.compare(&request, &own, &right);
    }
    tally.finish()
}

/// nmcp past its limits, where all else goes with it; then each array but the samples with no entries, one too
/// few, one too many, and of the rows one too few and one too many.
fn wrong_lengths(filter: Filter, random: &mut Generator) -> Vec<Request> {
    let mut requests: Vec<Request> = [0, 1, 65]
        .map(|nmcp| request(filter, nmcp, random))
        .to_vec();
    for nmcp in [2, 5, 64] {
        let good = request(filter, nmcp, random);
        let rights: Vec<usize> = good.arrays.all().map(Vec::len).collect();
        for (place, &right) in rights.iter().enumerate().skip(1) {
            let mut wrongs = vec![0, right - 1, right + 1, right + nmcp];
            wrongs.extend(right.checked_sub(nmcp));
            for length in wrongs {
                let mut wrong = good.clone();
                wrong.arrays.all_mut()[place].resize(length, 0.5);
                requests.push(wrong);
            }
        }
    }
    requests
}

/// Stages past their limits: with no rows, with one, with eight, with nine.
fn wrong_stages(random: &mut Generator) -> Vec<Request> {
    let mut requests = Vec::new();
    for nmcp in [2, 5, 64] {
        for rows in [0, 1, 8, 9] {
            for stages in WRONG_STAGES {
                let mut wrong = request(Filter::Mglsa { stages: rows }, nmcp, random);
                wrong.filter = Filter::Mglsa { stages };
                requests.push(wrong);
            }
        }
    }
    requests
}

/// A call with all lengths as they go with nmcp.
fn request(filter: Filter, nmcp: usize, random: &mut Generator) -> Request {
    let lengths = filter.lengths(nmcp).into_iter();
    Request {
        filter,
        alpha: 0.42,
        volume: 1.0,
        arrays: Arrays {
            samples: plain(SAMPLES, random),
            coefficients: plain(nmcp, random),
            increments: plain(nmcp, random),
            taps: lengths.map(|length| plain(length, random)).collect(),
        },
    }
}
