//! The Rust's own functions on spectra: the routed copy's files, in modules as the copy has them, so that
//! private ones are within reach. Their exp, ln, cos and powers are those of `crate::routes`.

use crate::routes;
use crate::spectrum::{Arrays, DONE, LONG, OUTSIDE, Outcome, Request, Step};
use cepstrum::{CepstrumT, MelCepstrum};
use coefficients::{Coefficients, CoefficientsT, GeneralizedCoefficients};
use generalized::Generalized;
use lsp::LineSpectralPairs;

#[macro_use]
mod buffer {
    include!("../routed/src/vocoder/buffer.rs");
}

pub mod generalized {
    include!("../routed/src/vocoder/generalized.rs");
}

pub mod coefficients {
    include!("../routed/src/vocoder/coefficients.rs");
}

pub mod cepstrum {
    include!("../routed/src/vocoder/cepstrum.rs");

    /// So many entries by `gc2gc`, which is private, from gamma to gamma.
    pub fn converted(c: &[f64], gamma: f64, entries: usize) -> Vec<f64> {
        let cepstrum = MelGeneralizedCepstrum {
            buffer: c.to_vec(),
            alpha: 0.0,
            gamma,
        };
        cepstrum.gc2gc(entries - 1, gamma).to_vec()
    }
}

pub mod lsp {
    include!("../routed/src/vocoder/lsp.rs");

    /// `lsp2lpc`, which is private.
    pub fn lpc(pairs: &LineSpectralPairs) -> Vec<f64> {
        pairs.lsp2lpc().to_vec()
    }

    /// `lsp2en`, which is private.
    pub fn energy(pairs: &LineSpectralPairs) -> f64 {
        pairs.lsp2en()
    }
}

/// What the Rust makes of a call within the limits. Where an argument in it is outside, all is refused.
pub fn outcome(request: &Request) -> Outcome {
    routes::take_outside();
    let after = arrays_after(request);
    let (number, arrays) = match routes::take_outside() {
        0 => (DONE, after),
        _ => (OUTSIDE, request.arrays.clone()),
    };
    Outcome { number, arrays }
}

fn arrays_after(request: &Request) -> Arrays {
    let &Request { alpha, beta, .. } = request;
    let gamma = gamma(request);
    let mut arrays = request.arrays.clone();
    let [x, y, z] = &mut arrays;
    match request.step {
        Step::Mc2b => *y = MelCepstrum::new(x, alpha).mc2b().to_vec(),
        Step::B2mc => *y = Coefficients::new(x).b2mc(alpha).to_vec(),
        Step::Freqt => *y = MelCepstrum::new(x, alpha).freqt(LONG - 1, alpha).to_vec(),
        Step::C2ir => *y = MelCepstrum::new(x, alpha).c2ir(LONG),
        Step::B2en => y[0] = Coefficients::new(x).b2en(alpha),
        Step::Gnorm => *x = GeneralizedCoefficients::new(x, gamma).gnorm().to_vec(),
        Step::Ignorm => *x = GeneralizedCoefficients::new(x, gamma).ignorm().to_vec(),
        Step::Gc2gc => *y = cepstrum::converted(x, gamma, y.len()),
        Step::PostfilterMcp => *x = filtered_cepstrum(x, alpha, beta).to_vec(),
        Step::Lsp2lpc => *y = lsp::lpc(&pairs(request)),
        Step::Lsp2mgc => *y = pairs(request).lsp2mgc().to_vec(),
        Step::Lsp2en => y[0] = lsp::energy(&pairs(request)),
        Step::PostfilterLsp => *x = filtered_pairs(request).to_vec(),
        Step::CheckLspStability => *x = repaired(pairs(request)).to_vec(),
        Step::PrepareMcp => {
            if request.first {
                *y = MelCepstrum::new(x, alpha).mc2b().to_vec();
            }
            *z = filtered_cepstrum(x, alpha, beta).mc2b().to_vec();
        }
        Step::PrepareLsp => {
            if request.first {
                *y = coefficients_of(&pairs(request), gamma);
            }
            *z = coefficients_of(&repaired(filtered_pairs(request)), gamma);
        }
    }
    arrays
}

fn gamma(request: &Request) -> f64 {
    -1.0 / request.stage as f64
}

fn filtered_cepstrum(c: &[f64], alpha: f64, beta: f64) -> MelCepstrum {
    let mut cepstrum = MelCepstrum::new(c, alpha);
    cepstrum.postfilter_mcp(beta);
    cepstrum
}

fn pairs(request: &Request) -> LineSpectralPairs {
    let (stage, gamma) = (request.stage as usize, gamma(request));
    let spectrum = &request.arrays[0];
    LineSpectralPairs::new(spectrum, request.alpha, request.log_gain, stage, gamma)
}

fn filtered_pairs(request: &Request) -> LineSpectralPairs {
    let mut pairs = pairs(request);
    pairs.postfilter_lsp(request.beta);
    pairs
}

fn repaired(mut pairs: LineSpectralPairs) -> LineSpectralPairs {
    pairs.check_lsp_stability();
    pairs
}

/// What `synthesize` makes of pairs for its filter.
fn coefficients_of(pairs: &LineSpectralPairs, gamma: f64) -> Vec<f64> {
    let mut coefficients = pairs.lsp2mgc().mc2b().gnorm().to_vec();
    for coefficient in &mut coefficients[1..] {
        *coefficient *= gamma;
    }
    coefficients
}
