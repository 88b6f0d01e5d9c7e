//! The pinned Rust's way from a spectrum to coefficients: its files, unchanged, in modules as it has them.

#[macro_use]
#[path = "vocoder/buffer.rs"]
mod buffer;
#[path = "vocoder/cepstrum.rs"]
mod cepstrum;
#[path = "vocoder/coefficients.rs"]
pub mod coefficients;
#[path = "vocoder/generalized.rs"]
mod generalized;
#[path = "vocoder/lsp.rs"]
mod lsp;

use cepstrum::{CepstrumT, MelCepstrum};
use generalized::Generalized;
use lsp::LineSpectralPairs;

pub const ALPHA: f64 = 0.42;

/// What `synthesize` makes of a spectrum that is not a voice's first, without log gain, before its samples.
pub fn prepare(spectrum: &[f64], beta: f64, stage: u64, targets: &mut [f64]) {
    if stage == 0 {
        let mut cepstrum = MelCepstrum::new(spectrum, ALPHA);
        cepstrum.postfilter_mcp(beta);
        return targets.copy_from_slice(&cepstrum.mc2b());
    }
    let gamma = -1.0 / stage as f64;
    let mut pairs = LineSpectralPairs::new(spectrum, ALPHA, false, stage as usize, gamma);
    pairs.postfilter_lsp(beta);
    pairs.check_lsp_stability();
    let mut coefficients = pairs.lsp2mgc().mc2b().gnorm();
    for coefficient in &mut coefficients[1..] {
        *coefficient *= gamma;
    }
    targets.copy_from_slice(&coefficients);
}
