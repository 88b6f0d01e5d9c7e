//! The tests of the crate over the archive.

mod announcement;
#[path = "../../examples/worker/job.rs"]
mod job;
mod layout;
mod refusals;
mod sound;

use crate::Voice;
use job::{Frame, Job};
use std::path::Path;

const DATA: &str = concat!(env!("CARGO_MANIFEST_DIR"), "/../data");

/// The jobs of data/jobs.txt.
const JOBS: usize = 4;

/// The samples that a busy voice has drawn of its frame.
const BUSY_DRAWN: usize = 8;

fn job(which: usize) -> Job {
    job::read_job(Path::new(DATA), which).expect("a job of data/jobs.txt")
}

/// Every call below makes a whole frame of a job's.
fn whole_frame(voice: &mut Voice, frame: &Frame, out: &mut [f64]) {
    let made = voice.whole_frame(frame.lf0, &frame.spectrum, &frame.lpf, out, 0);
    assert_eq!(made, Ok(voice.configuration.fperiod));
}

/// The voice of a job in the middle of its second voiced frame.
fn busy_voice(job: &Job) -> Voice {
    let nodata = job.configuration.nodata;
    let voiced = job.frames.iter().position(|frame| frame.lf0 != nodata);
    let one = voiced.expect("a voiced frame");
    let mut out = vec![0.0; job.configuration.fperiod];
    let mut voice = Voice::open(job.configuration).expect("a good job");
    whole_frame(&mut voice, &job.frames[one], &mut out);
    let two = &job.frames[one + 1];
    assert_eq!(voice.give(two.lf0, &two.spectrum, &two.lpf), Ok(()));
    assert_eq!(voice.draw(&mut out[..BUSY_DRAWN], 0), Ok(BUSY_DRAWN));
    voice
}
