//! The Rust's own vocoder: the routed copy's mod.rs over those of its files that are modules here already, so that its
//! private state can be set and read.

use crate::filter::{Arrays, Filter, Request};
use crate::voice_structs::{Configuration, Voice};
use crate::{rusts_excitation, rusts_filter};
use vocoder::Vocoder;

mod vocoder {
    use crate::rusts_excitation as excitation;
    use crate::rusts_filter::stage;
    use crate::rusts_spectrum::{cepstrum, generalized, lsp};

    include!("../routed/src/vocoder/vocoder.rs");

    impl Vocoder {
        pub fn set(&mut self, stage: Stage, excitation: Excitation, is_first: bool) {
            (self.stage, self.excitation, self.is_first) = (stage, excitation, is_first);
        }

        pub fn parts(&self) -> (Stage, Excitation) {
            (self.stage.clone(), self.excitation.clone())
        }
    }
}

/// The Rust's vocoder between two frames.
#[derive(Clone)]
pub struct Rusts {
    vocoder: Vocoder,
}

impl Rusts {
    pub fn open(configuration: &Configuration) -> Self {
        Self {
            vocoder: Vocoder::new(
                configuration.nmcp,
                configuration.nlpf,
                configuration.stage as usize,
                configuration.log_gain,
                configuration.rate as usize,
                configuration.alpha,
                configuration.beta,
                configuration.volume,
                configuration.fperiod,
            ),
        }
    }

    /// In the state of a voice that has nothing left to draw.
    pub fn at(voice: &Voice) -> Self {
        let mut rusts = Self::open(&voice.configuration);
        let stage = rusts_filter::Rusts::at(&filter_request(voice, Vec::new())).into_stage();
        let excitation = rusts_excitation::Rusts::at(&voice.excitation(), 0).into_excitation();
        rusts.vocoder.set(stage, excitation, voice.first);
        rusts
    }

    /// The samples of a frame.
    pub fn synthesize(&mut self, lf0: f64, spectrum: &[f64], lpf: &[f64], samples: &mut [f64]) {
        self.vocoder.synthesize(lf0, spectrum, lpf, samples);
    }

    /// Puts what it holds after a frame into the voice.
    pub fn read(&self, voice: &mut Voice) {
        let (stage, excitation) = self.vocoder.parts();
        let end_pitch = voice.pulse.end_pitch;
        voice.set_excitation(&rusts_excitation::Rusts::of(excitation, end_pitch).state());
        let (coefficients, taps) = rusts_filter::Rusts::of(stage).coefficients_and_taps();
        voice.coefficients[..coefficients.len()].copy_from_slice(&coefficients);
        voice.set_taps(&taps);
    }
}

/// What a voice has its filter do with samples of the excitation.
pub fn filter_request(voice: &Voice, samples: Vec<f64>) -> Request {
    let configuration = &voice.configuration;
    let nmcp = configuration.nmcp;
    Request {
        filter: Filter::of_stage(configuration.stage),
        alpha: configuration.alpha,
        volume: configuration.volume,
        arrays: Arrays {
            samples,
            coefficients: voice.coefficients[..nmcp].to_vec(),
            increments: voice.increments[..nmcp].to_vec(),
            taps: voice.taps(),
        },
    }
}
