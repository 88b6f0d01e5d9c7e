//! The structs that the calls take and give by value, in the archives' layout, which src/layout.rs checks.

use std::fmt::{self, Debug, Formatter};

/// What a voice is opened with, in the order of its records.
#[repr(C)]
#[derive(Clone, Copy, Debug, PartialEq)]
pub struct Configuration {
    /// Entries of a spectrum, 2 to 64.
    pub nmcp: usize,
    /// Filter taps of a frame, 0 to 64.
    pub nlpf: usize,
    /// 0 for mel-cepstra, 1 to 8 for line spectral pairs.
    pub stage: u64,
    /// Whether entry 0 of line spectral pairs is a log gain.
    pub log: bool,
    /// Samples a second, 1 to 192,000.
    pub rate: u64,
    /// Strictly between -1 and 1.
    pub alpha: f64,
    /// The postfilter, 0 to 1.
    pub beta: f64,
    /// Finite.
    pub volume: f64,
    /// Samples a frame, 1 to 4,800.
    pub fperiod: usize,
    /// The log F0 of an unvoiced frame, finite.
    pub nodata: f64,
    /// The lower limit of log F0, -20 to 20.
    pub low: f64,
    /// The upper limit of log F0, from `low` to 20.
    pub high: f64,
}

#[repr(C)]
#[derive(Clone)]
pub(crate) struct Pulse {
    pub pitch: f64,
    pub counter: f64,
    pub increment: f64,
    pub end: f64,
}

#[repr(C)]
#[derive(Clone)]
pub(crate) struct Random {
    pub next: u64,
    pub used: usize,
    pub queue: [f64; 64],
}

#[repr(C)]
#[derive(Clone)]
pub(crate) struct Zero {
    pub d11: [f64; 6],
    pub d12: [f64; 6],
    pub d21: [f64; 384],
    pub d22: [f64; 6],
}

/// A voice. Its fields are no caller's to write, so that its flags are always 0 or 1.
#[repr(C)]
#[derive(Clone)]
pub struct Voice {
    pub(crate) configuration: Configuration,
    pub(crate) meter: u64,
    pub(crate) left: usize,
    pub(crate) first: bool,
    pub(crate) pulse: Pulse,
    pub(crate) line: [f64; 64],
    pub(crate) lpf: [f64; 64],
    pub(crate) random: Random,
    pub(crate) coefficients: [f64; 64],
    pub(crate) increments: [f64; 64],
    pub(crate) targets: [f64; 64],
    pub(crate) zero: Zero,
    pub(crate) nonzero: [f64; 512],
}

#[repr(C)]
pub(crate) struct Answered {
    pub number: u64,
    pub voice: Voice,
}

#[repr(C)]
pub(crate) struct Drawn {
    pub number: u64,
    pub made: usize,
    pub voice: Voice,
}

#[repr(C)]
pub(crate) struct Saved {
    pub number: u64,
    pub bytes: usize,
}

#[repr(C)]
pub(crate) struct Written {
    pub number: u64,
    pub bytes: usize,
    pub held: usize,
}

#[repr(C)]
pub(crate) struct Heard {
    pub number: u64,
    pub bits: u64,
    pub rate: u64,
    pub count: usize,
}

impl Configuration {
    const ZERO: Self = Self {
        nmcp: 0,
        nlpf: 0,
        stage: 0,
        log: false,
        rate: 0,
        alpha: 0.0,
        beta: 0.0,
        volume: 0.0,
        fperiod: 0,
        nodata: 0.0,
        low: 0.0,
        high: 0.0,
    };
}

impl Pulse {
    const ZERO: Self = Self {
        pitch: 0.0,
        counter: 0.0,
        increment: 0.0,
        end: 0.0,
    };
}

impl Random {
    const ZERO: Self = Self {
        next: 0,
        used: 0,
        queue: [0.0; 64],
    };
}

impl Zero {
    const ZERO: Self = Self {
        d11: [0.0; 6],
        d12: [0.0; 6],
        d21: [0.0; 384],
        d22: [0.0; 6],
    };
}

impl Voice {
    /// The voice of zeros, which every call but restore refuses.
    pub const fn idle() -> Self {
        Self {
            configuration: Configuration::ZERO,
            meter: 0,
            left: 0,
            first: false,
            pulse: Pulse::ZERO,
            line: [0.0; 64],
            lpf: [0.0; 64],
            random: Random::ZERO,
            coefficients: [0.0; 64],
            increments: [0.0; 64],
            targets: [0.0; 64],
            zero: Zero::ZERO,
            nonzero: [0.0; 512],
        }
    }

    /// Its whole numbers and flags.
    fn whole_numbers(&self) -> [u64; 11] {
        let c = &self.configuration;
        [
            c.nmcp as u64,
            c.nlpf as u64,
            c.stage,
            u64::from(c.log),
            c.rate,
            c.fperiod as u64,
            self.meter,
            self.left as u64,
            u64::from(self.first),
            self.random.next,
            self.random.used as u64,
        ]
    }

    /// The bits of its floats, all NaNs taken as one.
    fn float_bits(&self) -> impl Iterator<Item = u64> {
        let (c, p) = (&self.configuration, &self.pulse);
        let single = [
            c.alpha,
            c.beta,
            c.volume,
            c.nodata,
            c.low,
            c.high,
            p.pitch,
            p.counter,
            p.increment,
            p.end,
        ];
        let arrays: [&[f64]; 11] = [
            &self.line,
            &self.lpf,
            &self.random.queue,
            &self.coefficients,
            &self.increments,
            &self.targets,
            &self.zero.d11,
            &self.zero.d12,
            &self.zero.d21,
            &self.zero.d22,
            &self.nonzero,
        ];
        let floats = single
            .into_iter()
            .chain(arrays.into_iter().flatten().copied());
        floats.map(|x| if x.is_nan() { f64::NAN } else { x }.to_bits())
    }
}

/// Bit for bit, all NaNs taken as one.
impl PartialEq for Voice {
    fn eq(&self, other: &Self) -> bool {
        self.whole_numbers() == other.whole_numbers() && self.float_bits().eq(other.float_bits())
    }
}

impl Debug for Voice {
    fn fmt(&self, to: &mut Formatter) -> fmt::Result {
        to.debug_struct("Voice")
            .field("configuration", &self.configuration)
            .field("meter", &self.meter)
            .field("left", &self.left)
            .finish_non_exhaustive()
    }
}
