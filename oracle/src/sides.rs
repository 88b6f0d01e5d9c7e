//! One voice on three sides: the pinned Rust, and its routed copy with Rust's functions and with ours.

use crate::frames::{Frame, Settings};
use routed::routes::{self, Answerer};

#[derive(Clone)]
pub struct Sides {
    pinned: pinned::vocoder::Vocoder,
    rusts: routed::vocoder::Vocoder,
    ours: routed::vocoder::Vocoder,
}

/// What each side made of a frame.
pub struct Samples {
    pub pinned: Vec<f64>,
    pub rusts: Vec<f64>,
    pub ours: Vec<f64>,
}

impl Sides {
    pub fn open(settings: &Settings) -> Self {
        macro_rules! open {
            ($package:ident) => {
                $package::vocoder::Vocoder::new(
                    settings.nmcp,
                    settings.nlpf,
                    settings.stage,
                    settings.log_gain,
                    settings.rate,
                    settings.alpha,
                    settings.beta,
                    settings.volume,
                    settings.fperiod,
                )
            };
        }
        Self {
            pinned: open!(pinned),
            rusts: open!(routed),
            ours: open!(routed),
        }
    }

    /// Renders a frame on every side. None where ours met an argument outside: the voice refuses such
    /// a frame, so that it changes nothing on any side.
    pub fn samples(
        &mut self,
        frame: &Frame,
        fperiod: usize,
        ours: &Answerer,
        rusts: &Answerer,
    ) -> Option<Samples> {
        let before = self.clone();
        let mut samples = Samples::silent(fperiod);
        let Frame { lf0, spectrum, lpf } = frame;
        routes::answer_by(ours);
        routes::take_outside();
        self.ours.synthesize(*lf0, spectrum, lpf, &mut samples.ours);
        if routes::take_outside() > 0 {
            *self = before;
            return None;
        }
        routes::answer_by(rusts);
        self.rusts
            .synthesize(*lf0, spectrum, lpf, &mut samples.rusts);
        self.pinned
            .synthesize(*lf0, spectrum, lpf, &mut samples.pinned);
        Some(samples)
    }
}

impl Samples {
    fn silent(count: usize) -> Self {
        Self {
            pinned: vec![0.0; count],
            rusts: vec![0.0; count],
            ours: vec![0.0; count],
        }
    }
}
