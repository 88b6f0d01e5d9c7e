//! A call of one of our two filters: what it is given, and what comes of it; also in words of 64 bits, as the
//! bridge has them, one form for both.

use crate::comparison::one_nan;
use crate::stretches::{bits, floats};

/// The entries of d11, d12 and d22, and the rows of d21.
const ORDERS: usize = 6;

/// The arrays of a call in the bridge's form: samples, coefficients, increments, and up to four of taps.
const ARRAYS: usize = 7;

/// The filter of stage 0, or that of the stages from 1 on, which has a row for each.
#[derive(Clone, Copy)]
pub enum Filter {
    Mlsa,
    Mglsa { stages: u64 },
}

/// What a call works on: it turns the samples, moves coefficients and taps on, and only reads the increments.
#[derive(Clone)]
pub struct Arrays {
    pub samples: Vec<f64>,
    pub coefficients: Vec<f64>,
    pub increments: Vec<f64>,
    /// In the order of a saved voice: d11, d12, d22, d21 row after row; or d alone, row after row.
    pub taps: Vec<Vec<f64>>,
}

#[derive(Clone)]
pub struct Request {
    pub filter: Filter,
    pub alpha: f64,
    pub volume: f64,
    pub arrays: Arrays,
}

/// What a call answers, and its arrays after it.
pub struct Outcome {
    pub number: u64,
    pub arrays: Arrays,
}

impl Filter {
    pub fn of_stage(stage: u64) -> Self {
        match stage {
            0 => Filter::Mlsa,
            stages => Filter::Mglsa { stages },
        }
    }

    pub fn stage(self) -> u64 {
        match self {
            Filter::Mlsa => 0,
            Filter::Mglsa { stages } => stages,
        }
    }

    /// The lengths of its arrays of taps.
    pub fn lengths(self, nmcp: usize) -> Vec<usize> {
        match self {
            Filter::Mlsa => vec![ORDERS, ORDERS, ORDERS, ORDERS * nmcp],
            Filter::Mglsa { stages } => vec![stages as usize * nmcp],
        }
    }

    /// The taps of a fresh voice.
    pub fn fresh(self, nmcp: usize) -> Vec<Vec<f64>> {
        let lengths = self.lengths(nmcp).into_iter();
        lengths.map(|length| vec![0.0; length]).collect()
    }
}

impl Arrays {
    /// All of them, in the bridge's order.
    pub fn all(&self) -> impl Iterator<Item = &Vec<f64>> {
        let first = [&self.samples, &self.coefficients, &self.increments];
        first.into_iter().chain(&self.taps)
    }

    pub fn all_mut(&mut self) -> Vec<&mut Vec<f64>> {
        let first = [
            &mut self.samples,
            &mut self.coefficients,
            &mut self.increments,
        ];
        first.into_iter().chain(&mut self.taps).collect()
    }

    pub fn bits(&self) -> impl Iterator<Item = u64> {
        self.all().flat_map(|array| bits(array))
    }
}

impl Request {
    /// The filter, its stages, alpha, volume, the lengths of the arrays (0 for one that it has not), the arrays.
    pub fn words(&self) -> Vec<u64> {
        let mut lengths: Vec<u64> = self.arrays.all().map(|array| array.len() as u64).collect();
        lengths.resize(ARRAYS, 0);
        let which = u64::from(matches!(self.filter, Filter::Mglsa { .. }));
        let mut words = vec![which, self.filter.stage()];
        words.extend([self.alpha, self.volume].map(|x| one_nan(x.to_bits())));
        words.extend(lengths);
        words.extend(self.arrays.bits());
        words
    }
}

impl Outcome {
    /// The number, the arrays.
    pub fn words(&self) -> Vec<u64> {
        [self.number]
            .into_iter()
            .chain(self.arrays.bits())
            .collect()
    }

    /// Reads the number and arrays as long as the call's.
    pub fn read(words: &mut impl Iterator<Item = u64>, request: &Request) -> Option<Self> {
        let number = words.next()?;
        let mut arrays = request.arrays.clone();
        for array in arrays.all_mut() {
            *array = floats(words, array.len())?;
        }
        Some(Self { number, arrays })
    }
}
