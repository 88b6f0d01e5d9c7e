//! What the Rust makes of a voice's calls: its samples by `synthesize`, cut where the calls cut them, its numbers by
//! document 01's table and by the arguments outside, and the whole voice after any call.

use crate::frames::Frame;
use crate::remembered::Remembered;
use crate::routes;
use crate::rusts_vocoder;
use crate::spectrum::{DONE, LIMIT, OUTSIDE};
use crate::voice::{Call, Kind, Outcome};
use crate::voice_numbers::{IDLE, NOTHING_LEFT, SHORT, is_idle, keeps_limits, of_give};
use crate::voice_parts::{drawn_from, ended, gains, given, prepared, rusts_lf0};
use crate::voice_structs::{Configuration, Voice};
use std::rc::Rc;

pub struct Rusts {
    ours: Rc<Remembered>,
    /// After the frame that is drawn from; none where the voice is idle.
    vocoder: Option<rusts_vocoder::Rusts>,
    /// As it is after the last give, or as it was opened or written.
    from: Voice,
    /// The samples from there to the frame's end, and how many of them are drawn.
    samples: Vec<f64>,
    drawn: usize,
    /// As it is after the last of them.
    to: Voice,
}

impl Rusts {
    /// The number of an open, and its voice.
    pub fn open(ours: &Rc<Remembered>, configuration: Configuration) -> (u64, Self) {
        if !keeps_limits(&configuration) {
            return (LIMIT, Self::at(ours, Voice::idle()));
        }
        let mut rusts = Self::at(ours, Voice::fresh(configuration));
        rusts.vocoder = Some(rusts_vocoder::Rusts::open(&configuration));
        (DONE, rusts)
    }

    /// A voice of any values.
    pub fn at(ours: &Rc<Remembered>, voice: Voice) -> Self {
        let idle = is_idle(&voice);
        let (samples, to) = match voice.left {
            left if left > 0 && !idle => ended(drawn_from(&voice, left)),
            _ => (Vec::new(), voice),
        };
        Self {
            ours: Rc::clone(ours),
            vocoder: (!idle).then(|| rusts_vocoder::Rusts::at(&to)),
            from: voice,
            samples,
            drawn: 0,
            to,
        }
    }

    /// The samples that are left to draw.
    pub fn left(&self) -> usize {
        self.samples.len() - self.drawn
    }

    pub fn configuration(&self) -> &Configuration {
        &self.from.configuration
    }

    /// The whole voice as it is.
    pub fn voice(&self) -> Voice {
        match self.drawn {
            0 => self.from,
            drawn if drawn == self.samples.len() => self.to,
            drawn => {
                let (samples, voice) = drawn_from(&self.from, drawn);
                let same = samples.iter().zip(&self.samples);
                assert!(
                    same.clone()
                        .all(|(x, y)| x == y || x.is_nan() && y.is_nan()),
                    "synthesize is not its parts"
                );
                voice
            }
        }
    }

    /// Makes a call.
    pub fn call(&mut self, call: &Call) -> Outcome {
        let mut outcome = Outcome {
            number: DONE,
            made: 0,
            buffer: call.buffer.clone(),
        };
        let whole = call.kind == Kind::WholeFrame;
        if self.vocoder.is_none() {
            outcome.number = IDLE;
        } else if whole && call.room() < self.configuration().fperiod {
            outcome.number = SHORT;
        } else if call.kind != Kind::Draw {
            outcome.number = self.give(&call.frame);
        }
        if outcome.number == DONE && call.kind != Kind::Give {
            self.draw(call, &mut outcome);
        }
        outcome
    }

    fn draw(&mut self, call: &Call, outcome: &mut Outcome) {
        if self.left() == 0 {
            outcome.number = NOTHING_LEFT;
            return;
        }
        outcome.made = self.left().min(call.room());
        let samples = &self.samples[self.drawn..][..outcome.made];
        if outcome.made > 0 {
            outcome.buffer[call.start..][..outcome.made].copy_from_slice(samples);
        }
        self.drawn += outcome.made;
    }

    fn give(&mut self, frame: &Frame) -> u64 {
        let mut voice = self.to;
        voice.meter -= self.left() as u64;
        voice.left = self.left();
        match of_give(&voice, frame) {
            DONE => self.give_a_good_one(&voice, frame),
            number => number,
        }
    }

    /// Renders a frame to which none of the earlier numbers applies.
    fn give_a_good_one(&mut self, voice: &Voice, frame: &Frame) -> u64 {
        let configuration = voice.configuration;
        let prepared = prepared(voice, frame);
        let from = given(voice, frame, &prepared);
        if configuration.stage == 0 {
            self.ours.ask_exps(&gains(&from));
        }
        let mut vocoder = self.vocoder.clone().expect("a voice that is not idle");
        let mut samples = vec![f64::NAN; configuration.fperiod];
        routes::take_outside();
        let lf0 = rusts_lf0(&configuration, frame.lf0);
        vocoder.synthesize(lf0, &frame.spectrum, &frame.lpf, &mut samples);
        let outside = routes::take_outside() > 0;
        assert!(
            outside == (prepared.number == OUTSIDE),
            "synthesize does not prepare so"
        );
        if outside {
            return OUTSIDE;
        }
        self.to = from;
        self.to.meter += configuration.fperiod as u64;
        self.to.left = 0;
        vocoder.read(&mut self.to);
        (self.vocoder, self.from, self.samples, self.drawn) = (Some(vocoder), from, samples, 0);
        DONE
    }
}
