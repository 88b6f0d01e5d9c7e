//! A call of one of our functions on spectra: what it is given, and what comes of it; also in words of
//! 64 bits, as the bridge has them, one form for all the functions.

use crate::comparison::one_nan;
use crate::stretches::{bits, floats};
use std::ops::RangeInclusive;

/// The length of a warped cepstrum and of an impulse response.
pub const LONG: usize = 576;

/// The numbers that a call answers: done, a length or the stage past its limit, an argument outside.
pub const DONE: u64 = 0;
pub const LIMIT: u64 = 1;
pub const OUTSIDE: u64 = 9;

/// The functions, steps of preparing a frame, under the bridge's numbers.
#[derive(Clone, Copy, PartialEq)]
pub enum Step {
    Mc2b = 0,
    B2mc = 1,
    Freqt = 2,
    C2ir = 3,
    B2en = 4,
    Gnorm = 5,
    Ignorm = 6,
    Gc2gc = 7,
    PostfilterMcp = 8,
    Lsp2lpc = 9,
    Lsp2mgc = 10,
    Lsp2en = 11,
    PostfilterLsp = 12,
    CheckLspStability = 13,
    PrepareMcp = 14,
    PrepareLsp = 15,
}

/// The arrays of a call, in its order; where it takes fewer, the last are empty.
pub type Arrays = [Vec<f64>; 3];

/// A call: every scalar that any of the functions takes, and the arrays of this one.
#[derive(Clone)]
pub struct Request {
    pub step: Step,
    pub alpha: f64,
    pub beta: f64,
    pub stage: u64,
    pub log_gain: bool,
    pub first: bool,
    pub arrays: Arrays,
}

/// What a call answers, and its arrays after it.
pub struct Outcome {
    pub number: u64,
    pub arrays: Arrays,
}

impl Step {
    /// How many entries the first array may have.
    pub fn entries(self) -> RangeInclusive<usize> {
        match self {
            Step::C2ir => LONG..=LONG,
            Step::Gnorm | Step::Ignorm | Step::Gc2gc => 1..=65,
            _ => 2..=64,
        }
    }

    /// The lengths of the arrays where the first has so many entries. Of `gc2gc` the second may be shorter.
    pub fn lengths(self, entries: usize) -> [usize; 3] {
        match self {
            Step::Mc2b | Step::B2mc | Step::Gc2gc | Step::Lsp2mgc => [entries, entries, 0],
            Step::Freqt | Step::C2ir => [entries, LONG, 0],
            Step::B2en | Step::Lsp2en => [entries, 1, 0],
            Step::Lsp2lpc => [entries, entries + 1, 0],
            Step::PrepareMcp | Step::PrepareLsp => [entries; 3],
            _ => [entries, 0, 0],
        }
    }

    pub fn takes_stage(self) -> bool {
        matches!(
            self,
            Step::Gnorm
                | Step::Ignorm
                | Step::Gc2gc
                | Step::Lsp2mgc
                | Step::Lsp2en
                | Step::PostfilterLsp
                | Step::PrepareLsp
        )
    }
}

impl Request {
    /// The function, the scalars, the lengths of the arrays, the arrays.
    pub fn words(&self) -> Vec<u64> {
        let mut words = vec![self.step as u64];
        words.extend([self.alpha, self.beta].map(|x| one_nan(x.to_bits())));
        words.extend([self.stage, self.log_gain.into(), self.first.into()]);
        words.extend(self.lengths().map(|length| length as u64));
        words.extend(self.arrays.iter().flat_map(|array| bits(array)));
        words
    }

    pub fn lengths(&self) -> [usize; 3] {
        self.arrays.each_ref().map(Vec::len)
    }
}

impl Outcome {
    /// The number, the arrays.
    pub fn words(&self) -> Vec<u64> {
        let arrays = self.arrays.iter().flat_map(|array| bits(array));
        [self.number].into_iter().chain(arrays).collect()
    }

    pub fn read(words: &mut impl Iterator<Item = u64>, lengths: [usize; 3]) -> Option<Self> {
        let number = words.next()?;
        let [x, y, z] = lengths.map(|length| floats(words, length));
        Some(Self {
            number,
            arrays: [x?, y?, z?],
        })
    }
}
