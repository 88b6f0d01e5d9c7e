//! The limits of open: each alone at its ends and past them, then any values near them all at once.

use crate::generator::Generator;
use crate::spectrum::{DONE, LIMIT};
use crate::voice_numbers::keeps_limits;
use crate::voice_sides::{Functions, Sides};
use crate::voice_structs::Configuration;
use crate::voice_tally::Tally;
use crate::voice_values::any_configuration;

/// A slot of the configuration, values of it that keep its limit, and values that break it.
type Limit<T> = (usize, &'static [T], &'static [T]);

const WHOLE: [Limit<u64>; 5] = [
    (0, &[2, 3, 63, 64], &[0, 1, 65, 1 << 32, u64::MAX]),
    (1, &[0, 1, 63, 64], &[65, 1 << 32, u64::MAX]),
    (2, &[0, 1, 7, 8], &[9, 1 << 32, u64::MAX]),
    (4, &[1, 2, 192_000], &[0, 192_001, 1 << 32, u64::MAX]),
    (8, &[1, 2, 4_800], &[0, 4_801, 1 << 32, u64::MAX]),
];

const INFINITY: f64 = f64::INFINITY;
const LARGE: &[f64] = &[f64::MAX, f64::MIN, 0.0, -0.0, 5e-324];
const NOT_FINITE: &[f64] = &[f64::NAN, INFINITY, -INFINITY];

/// Alpha, beta, volume and the no-data number.
const FLOATS: [Limit<f64>; 4] = [
    (
        5,
        &[0.0, -0.0, 1.0_f64.next_down(), -1.0_f64.next_down()],
        &[
            1.0,
            -1.0,
            1.0_f64.next_up(),
            -1.0_f64.next_up(),
            f64::NAN,
            INFINITY,
            -INFINITY,
        ],
    ),
    (
        6,
        &[0.0, -0.0, 5e-324, 1.0_f64.next_down(), 1.0],
        &[
            -5e-324,
            -1.0,
            1.0_f64.next_up(),
            f64::NAN,
            INFINITY,
            -INFINITY,
        ],
    ),
    (7, LARGE, NOT_FINITE),
    (9, LARGE, NOT_FINITE),
];

/// Low and high.
const LOW: usize = 10;
const HIGH: usize = 11;
const ENDS_KEPT: [(f64, f64); 7] = [
    (-20.0, 20.0),
    (-20.0, -20.0),
    (20.0, 20.0),
    (-0.0, 0.0),
    (0.0, -0.0),
    (3.0, 3.0),
    (5e-324, 1.0),
];
const ENDS_BROKEN: [(f64, f64); 12] = [
    (-20.0_f64.next_up(), 20.0),
    (-20.0, 20.0_f64.next_up()),
    (3.0_f64.next_up(), 3.0),
    (5e-324, 0.0),
    (20.0, -20.0),
    (20.0_f64.next_up(), 20.0_f64.next_up()),
    (-20.0_f64.next_up(), -20.0_f64.next_up()),
    (f64::NAN, 3.0),
    (3.0, f64::NAN),
    (-INFINITY, 3.0),
    (3.0, INFINITY),
    (INFINITY, -INFINITY),
];

/// So many configurations with several values at or past their ends.
const NEAR: usize = 4_000;

/// Each limit alone.
pub fn limits(functions: &Functions, random: &mut Generator) -> bool {
    let mut tally = Tally::new("each limit of open");
    for (changes, number) in each_alone() {
        let mut words = any_configuration(random).words();
        for (slot, word) in changes {
            words[slot] = word;
        }
        let configuration = Configuration::of(words);
        assert!(
            keeps_limits(&configuration) == (number == DONE),
            "{}",
            configuration.shown()
        );
        Sides::open(functions, 0, configuration, &mut tally);
    }
    let met = tally.has_met(&[("open", &[DONE, LIMIT])]);
    tally.finish() && met
}

/// What is set in which slots, and the number that it leads to.
pub fn each_alone() -> Vec<(Vec<(usize, u64)>, u64)> {
    let mut all = Vec::new();
    for (slot, kept, broken) in WHOLE {
        all.extend(kept.iter().map(|&word| (vec![(slot, word)], DONE)));
        all.extend(broken.iter().map(|&word| (vec![(slot, word)], LIMIT)));
    }
    for (slot, kept, broken) in FLOATS {
        all.extend(kept.iter().map(|x| (vec![(slot, x.to_bits())], DONE)));
        all.extend(broken.iter().map(|x| (vec![(slot, x.to_bits())], LIMIT)));
    }
    let ends = |(low, high): (f64, f64)| vec![(LOW, low.to_bits()), (HIGH, high.to_bits())];
    all.extend(ENDS_KEPT.map(|kept| (ends(kept), DONE)));
    all.extend(ENDS_BROKEN.map(|broken| (ends(broken), LIMIT)));
    all
}

/// Two values from the table at once.
pub fn near_limits(functions: &Functions, random: &mut Generator) -> bool {
    let mut tally = Tally::new("limits of open in twos");
    let all = each_alone();
    for _ in 0..NEAR {
        let mut words = any_configuration(random).words();
        for _ in 0..2 {
            let (changes, _) = &all[random.below(all.len() as u64) as usize];
            for &(slot, word) in changes {
                words[slot] = word;
            }
        }
        Sides::open(functions, 0, Configuration::of(words), &mut tally);
    }
    let met = tally.has_met(&[("open", &[DONE, LIMIT])]);
    tally.finish() && met
}
