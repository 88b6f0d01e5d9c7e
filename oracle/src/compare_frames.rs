//! The samples of whole frames: the pinned vocoder with our four functions, beside itself with Rust's.

use crate::answerers::{our_own, rusts_own};
use crate::check_pinned::FUSED;
use crate::comparison::one_nan;
use crate::frames::{FrameSet, announcement};
use crate::generated_frames;
use crate::ours::Ours;
use crate::sides::{Samples, Sides};
use routed::routes::Answerer;
use std::cell::RefCell;
use std::path::Path;
use std::rc::Rc;

/// The announcement, where there is a folder of it, then the generated frames. True where the routed
/// copy with Rust's functions is the pinned Rust, ours lead nowhere else, and the right frames are refused.
pub fn run(ours: &Rc<RefCell<Ours>>, seed: u64, folder: Option<&Path>) -> Result<bool, String> {
    let mut sets = folder.map_or(Ok(Vec::new()), announcement)?;
    sets.extend(generated_frames::sets(seed));
    let (ours, rusts) = (our_own(Rc::clone(ours)), rusts_own());
    print_heading();
    let mut good = true;
    for set in &sets {
        let tally = over(set, &ours, &rusts);
        print_line(&set.name, &tally);
        let complaints = tally.complaints(set);
        for complaint in &complaints {
            println!("{}: {complaint}", set.name);
        }
        good &= complaints.is_empty();
    }
    Ok(good)
}

fn over(set: &FrameSet, ours: &Answerer, rusts: &Answerer) -> Tally {
    let mut sides = Sides::open(&set.settings);
    let mut tally = Tally::default();
    for frame in &set.frames {
        match sides.samples(frame, set.settings.fperiod, ours, rusts) {
            Some(samples) => tally.add(&samples),
            None => tally.refused += 1,
        }
    }
    tally
}

/// What was seen over a set. The sizes are those of the samples before the first that is not finite.
#[derive(Default)]
struct Tally {
    samples: usize,
    finite: usize,
    refused: usize,
    routed_differs: usize,
    peak: f64,
    largest: f64,
}

impl Tally {
    fn add(&mut self, samples: &Samples) {
        let sides = samples.pinned.iter().zip(&samples.rusts).zip(&samples.ours);
        for ((pinned, rusts), ours) in sides {
            if !FUSED && one_nan(pinned.to_bits()) != one_nan(rusts.to_bits()) {
                self.routed_differs += 1;
            }
            if self.finite == self.samples && rusts.is_finite() && ours.is_finite() {
                self.finite += 1;
                self.peak = self.peak.max(rusts.abs());
                self.largest = self.largest.max((ours - rusts).abs());
            }
            self.samples += 1;
        }
    }

    /// What is not as it should be.
    fn complaints(&self, set: &FrameSet) -> Vec<String> {
        let mut complaints = Vec::new();
        if self.routed_differs > 0 {
            complaints.push(format!(
                "with Rust's functions {} samples of the routed copy are not the pinned Rust's",
                self.routed_differs
            ));
        }
        if self.refused != set.refusals {
            complaints.push(format!(
                "{} frames were to be refused, and {} were",
                set.refusals, self.refused
            ));
        }
        if self.largest > set.most * self.peak {
            complaints.push(format!("more than {:e} of the peak away", set.most));
        }
        if set.most.is_finite() && self.finite < self.samples {
            complaints.push(format!("sample {} is not finite", self.finite));
        }
        complaints
    }
}

fn print_heading() {
    println!(
        "{:50} {:>8} {:>8} {:>8} {:>10} {:>10} {:>12}",
        "frames", "refused", "samples", "finite", "peak", "difference", "of the peak"
    );
}

fn print_line(name: &str, tally: &Tally) {
    println!(
        "{name:50} {:8} {:8} {:8} {:10.4e} {:10.1e} {:12.1e}",
        tally.refused,
        tally.samples,
        tally.finite,
        tally.peak,
        tally.largest,
        tally.largest / tally.peak
    );
}
