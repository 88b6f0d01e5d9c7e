//! Renders the announcement's jobs whole, and again cut, saved and restored; both must be the Rust's samples.

use super::{DATA, JOBS, job, job::Frame, job::read_line};
use crate::{MOST_BYTES, Voice};
use std::path::Path;

/// The samples of a draw that cuts a frame, and the factor of the checksum.
const PART: usize = 33;
const FACTOR: u64 = 6_364_136_223_846_793_005;

/// A render, as far as it has come.
struct Render {
    voice: Voice,
    samples: u64,
    sum: u64,
}

impl Render {
    fn hear(&mut self, samples: &[f64]) {
        self.samples += samples.len() as u64;
        for x in samples {
            let bits = if x.is_nan() { f64::NAN } else { *x }.to_bits();
            self.sum = self.sum.wrapping_mul(FACTOR).wrapping_add(bits);
        }
    }

    /// In the middle of a longer buffer whose ends stay.
    fn whole_frame(&mut self, frame: &Frame) {
        let fperiod = self.voice.configuration().fperiod;
        let before = self.voice.meter();
        let mut out = vec![-7.0; fperiod + 2];
        let made = self
            .voice
            .whole_frame(frame.lf0, &frame.spectrum, &frame.lpf, &mut out, 1);
        assert_eq!(made, Ok(fperiod));
        assert_eq!(
            (self.voice.meter(), self.voice.left()),
            (before + fperiod as u64, 0)
        );
        assert_eq!((out[0], out[fperiod + 1]), (-7.0, -7.0));
        self.hear(&out[1..=fperiod]);
    }

    /// Goes on with the voice that was saved, restored into an idle one.
    fn restart(&mut self) {
        let mut records = [0; MOST_BYTES];
        let length = self
            .voice
            .save(&mut records)
            .expect("a voice that can be saved");
        let mut restored = Voice::idle();
        assert_eq!(restored.restore(&records[..length]), Ok(()));
        assert_eq!(restored, self.voice);
        self.voice = restored;
    }

    /// A restart before each draw.
    fn cut_frame(&mut self, frame: &Frame) {
        assert_eq!(
            self.voice.give(frame.lf0, &frame.spectrum, &frame.lpf),
            Ok(())
        );
        let mut left = self.voice.configuration().fperiod;
        while left > 0 {
            assert_eq!(self.voice.left(), left);
            self.restart();
            let mut out = [0.0; PART];
            let made = left.min(PART);
            assert_eq!(self.voice.draw(&mut out, 0), Ok(made));
            self.hear(&out[..made]);
            left -= made;
        }
    }
}

/// Renders every job, and holds meter, count and checksum to those of data/jobs.txt.
fn render_jobs(how: &str, make: fn(&mut Render, &Frame)) {
    for which in 0..JOBS {
        let job = job(which);
        let words = read_line(Path::new(DATA), which).expect("a line of data/jobs.txt");
        let [.., samples, checksum] = &words[..] else {
            panic!("too short a line")
        };
        let voice = Voice::open(job.configuration).expect("a good job");
        let mut render = Render {
            voice,
            samples: 0,
            sum: 0,
        };
        for frame in &job.frames {
            make(&mut render, frame);
        }
        let made = (render.samples.to_string(), format!("{:016x}", render.sum));
        println!(
            "Rust: announcement, job {which}, {how}: {} samples, checksum {}",
            made.0, made.1
        );
        assert_eq!(render.voice.meter(), render.samples);
        assert_eq!(made, (samples.clone(), checksum.clone()));
    }
}

#[test]
fn whole_frames_are_the_rusts() {
    render_jobs("whole frames", Render::whole_frame);
}

#[test]
fn cut_saved_and_restored_they_are_too() {
    render_jobs("cut, saved and restored", Render::cut_frame);
}
