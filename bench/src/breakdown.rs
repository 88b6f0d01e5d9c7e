//! The table of where the time of our whole frames goes.

use crate::cases::Case;
use crate::frames::{Frame, Setting};
use crate::measure::{Pass, measure};
use crate::parts::{Parted, apart, excitation, filter, preparing};
use crate::shim::Voice;
use crate::variants::floats;
use crate::whole_frames::{open, over};
use std::hint::black_box;

/// The passes of a row: the whole, the same by two calls, and the three parts.
const WAYS: [&str; 5] = ["whole", "give+draw", "preparing", "excitation", "filter"];

/// Measures and prints case by case. False where the samples of one, made by its parts, have another sum of sizes.
pub fn print(cases: &[Case]) -> bool {
    println!(
        "\nns a sample of our whole frames and of their parts; rest: the whole without the three"
    );
    print!("{:26} {:7}", "nmcp/nlpf/stage", "by");
    WAYS.iter().for_each(|way| print!(" {way:>10}"));
    println!(" {:>10}", "rest");
    cases.iter().all(print_case)
}

fn print_case(case: &Case) -> bool {
    let (setting, frames) = (Setting::of(&case.right), floats(&case.left));
    let frames = apart(setting, &frames);
    let passes = passes(case, setting, &frames);
    let [whole, others @ ..] = [0, 1, 4].map(|way: usize| passes[way]());
    let agree = others == [whole; 2];
    if agree {
        let times = measure(&passes, case.count as f64);
        print_row(&case.set, "best", times.iter().map(|way| way.best));
        print_row("", "median", times.iter().map(|way| way.median));
    } else {
        eprintln!(
            "bench: {}: the parts make another sum than the whole frames, so times say nothing",
            case.set
        );
    }
    agree
}

fn print_row(set: &str, by: &str, times: impl Iterator<Item = f64>) {
    let times: Vec<f64> = times.collect();
    print!("{set:26} {by:7}");
    times.iter().for_each(|time| print!(" {time:10.2}"));
    println!(" {:10.2}", times[0] - times[2..].iter().sum::<f64>());
}

/// In the order of `WAYS`.
fn passes<'a>(case: &'a Case, setting: Setting, frames: &'a [Parted]) -> Vec<Pass<'a>> {
    let (left, right) = (&case.left, &case.right);
    vec![
        Box::new(|| over(black_box(left), right, open, Voice::whole_frame)),
        Box::new(|| over(black_box(left), right, open, give_and_draw)),
        Box::new(move || preparing(setting, black_box(frames))),
        Box::new(move || excitation(setting, black_box(frames))),
        Box::new(move || filter(setting, black_box(frames))),
    ]
}

fn give_and_draw(voice: &mut Voice, frame: Frame, samples: &mut [f64]) {
    voice.give(frame);
    voice.draw(samples);
}
