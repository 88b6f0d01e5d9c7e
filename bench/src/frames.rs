//! Frames as a voice is given them, voiced and unvoiced ones mixed.

use crate::constants::NODATA;
use crate::generator::Generator;
use crate::preparations::{cepstrum, pairs};

/// The samples of a frame, the frames of a pass, and the samples of a second.
pub const FRAME: usize = 240;
pub const FRAMES: usize = 17;
pub const RATE: u64 = 48_000;

pub const VOLUME: f64 = 1.0;

/// What the voices differ in.
#[derive(Clone, Copy)]
pub struct Setting {
    pub nmcp: usize,
    pub nlpf: usize,
    pub stage: u64,
    pub alpha: f64,
    pub beta: f64,
}

/// What a voice is given.
#[derive(Clone, Copy)]
pub struct Frame<'a> {
    pub lf0: f64,
    pub spectrum: &'a [f64],
    pub lpf: &'a [f64],
}

impl Setting {
    /// The setting as the second words of a case.
    pub fn words(self) -> Vec<u64> {
        let floats = [self.alpha, self.beta].map(f64::to_bits);
        let mut words = vec![self.nmcp as u64, self.nlpf as u64, self.stage];
        words.extend(floats);
        words
    }

    pub fn of(words: &[u64]) -> Self {
        Self {
            nmcp: words[0] as usize,
            nlpf: words[1] as usize,
            stage: words[2],
            alpha: f64::from_bits(words[3]),
            beta: f64::from_bits(words[4]),
        }
    }

    /// The words of new frames: log F0, spectrum and taps of each. Every third is unvoiced.
    pub fn new_frames(self, random: &mut Generator) -> Vec<u64> {
        let mut words = Vec::new();
        for place in 0..FRAMES {
            let voiced = (100.0 + 200.0 * random.unit()).ln();
            let lf0 = if place % 3 == 2 { NODATA } else { voiced };
            words.push(lf0.to_bits());
            words.extend(match self.stage {
                0 => cepstrum(self.nmcp, random),
                _ => pairs(self.nmcp, random),
            });
            words.extend((0..self.nlpf).map(|_| random.unit().to_bits()));
        }
        words
    }

    /// The frames again, in the floats of their words.
    pub fn frames(self, floats: &[f64]) -> impl Iterator<Item = Frame<'_>> {
        floats.chunks(1 + self.nmcp + self.nlpf).map(move |frame| {
            let (spectrum, lpf) = frame[1..].split_at(self.nmcp);
            Frame {
                lf0: frame[0],
                spectrum,
                lpf,
            }
        })
    }
}
