//! A voice and its configuration in words of 64 bits, in the order of their structs (floats as their bits, every NaN as
//! the one).

use crate::comparison::one_nan;
use crate::excitation_structs::{Pulse, Random};
use crate::stretches::{bits, floats};
use crate::voice_structs::{Configuration, Voice, Zero};

/// The words of a configuration, and of a voice.
pub const CONFIGURATION_WORDS: usize = 12;
pub const VOICE_WORDS: usize = size_of::<Voice>() / 8;

impl Configuration {
    pub fn words(&self) -> [u64; CONFIGURATION_WORDS] {
        let float = |x: f64| one_nan(x.to_bits());
        [
            self.nmcp as u64,
            self.nlpf as u64,
            self.stage,
            self.log_gain.into(),
            self.rate,
            float(self.alpha),
            float(self.beta),
            float(self.volume),
            self.fperiod as u64,
            float(self.nodata),
            float(self.low),
            float(self.high),
        ]
    }

    pub fn of(words: [u64; CONFIGURATION_WORDS]) -> Self {
        let float = |place: usize| f64::from_bits(words[place]);
        Self {
            nmcp: words[0] as usize,
            nlpf: words[1] as usize,
            stage: words[2],
            log_gain: words[3] != 0,
            rate: words[4],
            alpha: float(5),
            beta: float(6),
            volume: float(7),
            fperiod: words[8] as usize,
            nodata: float(9),
            low: float(10),
            high: float(11),
        }
    }
}

impl Voice {
    pub fn words(&self) -> Vec<u64> {
        let mut words = self.configuration.words().to_vec();
        words.extend([self.meter, self.left as u64, self.first.into()]);
        words.extend(self.pulse.words());
        words.extend(bits(&self.line).chain(bits(&self.lpf)));
        words.extend([self.random.next, self.random.used as u64]);
        words.extend(bits(&self.random.queue));
        for array in [&self.coefficients, &self.increments, &self.targets] {
            words.extend(bits(array));
        }
        words.extend(bits(&self.zero.d11).chain(bits(&self.zero.d12)));
        words.extend(bits(&self.zero.d21).chain(bits(&self.zero.d22)));
        words.extend(bits(&self.nonzero));
        words
    }

    pub fn read(words: &mut impl Iterator<Item = u64>) -> Option<Self> {
        let configuration: Vec<u64> = words.by_ref().take(CONFIGURATION_WORDS).collect();
        Some(Self {
            configuration: Configuration::of(configuration.try_into().ok()?),
            meter: words.next()?,
            left: words.next()? as usize,
            first: words.next()? != 0,
            pulse: Pulse::read(words)?,
            line: array(words)?,
            lpf: array(words)?,
            random: Random {
                next: words.next()?,
                used: words.next()? as usize,
                queue: array(words)?,
            },
            coefficients: array(words)?,
            increments: array(words)?,
            targets: array(words)?,
            zero: Zero {
                d11: array(words)?,
                d12: array(words)?,
                d21: array(words)?,
                d22: array(words)?,
            },
            nonzero: array(words)?,
        })
    }
}

fn array<const N: usize>(words: &mut impl Iterator<Item = u64>) -> Option<[f64; N]> {
    floats(words, N)?.try_into().ok()
}
