//! A stretch of the excitation's samples: what is asked, and what comes of it; also in words of 64
//! bits, as the bridge and the fixed list have them (floats as their bits, every NaN as the one).

use crate::comparison::one_nan;
use crate::excitation_structs::{Pulse, Random};

/// The words of a state before its line.
const STATE_WORDS: usize = 70;

/// The excitation between two samples; tap 0 of the line is the next to go out.
#[derive(Clone)]
pub struct State {
    pub pulse: Pulse,
    pub random: Random,
    pub line: Vec<f64>,
}

/// So many samples from a state, by filter taps as long as its line.
pub struct Request {
    pub count: usize,
    pub state: State,
    pub lpf: Vec<f64>,
}

pub struct Outcome {
    pub made: usize,
    /// The whole buffer: only the first `made` of it are samples.
    pub samples: Vec<f64>,
    pub state: State,
}

impl Pulse {
    pub fn words(&self) -> [u64; 4] {
        let Self {
            pitch,
            counter,
            increment,
            end_pitch,
        } = *self;
        [pitch, counter, increment, end_pitch].map(|x| one_nan(x.to_bits()))
    }

    pub fn read(words: &mut impl Iterator<Item = u64>) -> Option<Self> {
        let mut float = || words.next().map(f64::from_bits);
        Some(Self {
            pitch: float()?,
            counter: float()?,
            increment: float()?,
            end_pitch: float()?,
        })
    }
}

impl State {
    /// Of a fresh voice.
    pub fn fresh(nlpf: usize) -> Self {
        Self {
            pulse: Pulse::FRESH,
            random: Random::FRESH,
            line: vec![0.0; nlpf],
        }
    }

    /// Pitch, counter, increment, end pitch; next, used, queue; line.
    pub fn words(&self) -> Vec<u64> {
        let mut words = self.pulse.words().to_vec();
        words.extend([self.random.next, self.random.used as u64]);
        words.extend(bits(&self.random.queue));
        words.extend(bits(&self.line));
        words
    }

    fn read(words: &mut impl Iterator<Item = u64>, nlpf: usize) -> Option<Self> {
        Some(Self {
            pulse: Pulse::read(words)?,
            random: Random {
                next: words.next()?,
                used: words.next()? as usize,
                queue: floats(words, 64)?.try_into().ok()?,
            },
            line: floats(words, nlpf)?,
        })
    }
}

impl Request {
    /// The number of taps, the count, the state, the filter taps.
    pub fn words(&self) -> Vec<u64> {
        let mut words = vec![self.lpf.len() as u64, self.count as u64];
        words.extend(self.state.words());
        words.extend(bits(&self.lpf));
        words
    }

    pub fn read(words: &mut impl Iterator<Item = u64>) -> Option<Self> {
        let nlpf = words.next()? as usize;
        Some(Self {
            count: words.next()? as usize,
            state: State::read(words, nlpf)?,
            lpf: floats(words, nlpf)?,
        })
    }
}

impl Outcome {
    /// The number of samples made, these samples, the state.
    pub fn words(&self) -> Vec<u64> {
        let mut words = vec![self.made as u64];
        words.extend(bits(&self.samples).take(self.made));
        words.extend(self.state.words());
        words
    }

    /// How many words the bridge answers: it sends the whole buffer.
    pub fn words_for(count: usize, nlpf: usize) -> usize {
        1 + count + STATE_WORDS + nlpf
    }

    pub fn read(words: &mut impl Iterator<Item = u64>, count: usize, nlpf: usize) -> Option<Self> {
        Some(Self {
            made: words.next()? as usize,
            samples: floats(words, count)?,
            state: State::read(words, nlpf)?,
        })
    }
}

pub fn bits(floats: &[f64]) -> impl Iterator<Item = u64> {
    floats.iter().map(|x| one_nan(x.to_bits()))
}

pub fn floats(words: &mut impl Iterator<Item = u64>, count: usize) -> Option<Vec<f64>> {
    (0..count)
        .map(|_| words.next().map(f64::from_bits))
        .collect()
}
