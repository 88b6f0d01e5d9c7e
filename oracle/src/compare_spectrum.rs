//! Our functions on spectra against the Rust's own, whose exp, ln, cos and powers are answered by ours:
//! numbers and arrays, bit for bit, all NaNs taken as one.

use crate::answerers::our_own;
use crate::compare_spectrum_numbers::{equal_pairs, first_frames, limits};
use crate::generator::Generator;
use crate::ours::Ours;
use crate::routes;
use crate::rusts_spectrum;
use crate::spectrum_cases::FAMILIES;
use crate::spectrum_tally::Tally;
use std::cell::RefCell;
use std::rc::Rc;

pub fn run(ours: &Rc<RefCell<Ours>>, seed: u64) -> bool {
    routes::answer_by(&our_own(Rc::clone(ours)));
    let mut random = Generator::new(seed);
    let mut good = true;
    for family in FAMILIES {
        let mut tally = Tally::new(family.name);
        for request in family.requests(&mut random) {
            let own = ours.borrow_mut().spectrum(&request);
            tally.compare(&request, &own, &rusts_spectrum::outcome(&request));
        }
        good &= tally.is_fair(&family.inside);
        good &= tally.finish();
    }
    for part in [limits, equal_pairs, first_frames] {
        good &= part(ours, &mut random);
    }
    good
}
