//! Our sound files against our reading of document 02's L4: numbers, bytes, samples held back, and buffers after a call.

use crate::compare_sound_damage::{damaged, sequences};
use crate::compare_sound_files::files;
use crate::compare_sound_numbers::numbers;
use crate::compare_sound_refusals::refusals;
use crate::generator::Generator;
use crate::ours::Ours;
use crate::sound_folder::Named;
use std::cell::RefCell;

/// Every part draws its random values anew from the seed. `others` are files that other programs wrote.
pub fn run(ours: &RefCell<Ours>, seed: u64, others: &[Named]) -> bool {
    let mut good = true;
    for part in [numbers, files, refusals] {
        good &= part(ours, &mut Generator::new(seed));
    }
    good &= damaged(ours, others);
    good & sequences(ours, &mut Generator::new(seed))
}
