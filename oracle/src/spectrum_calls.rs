//! The functions on spectra, linked in.

use crate::spectrum::{Outcome, Request, Step};

type In = *const f64;
type Out = *mut f64;

#[link(name = "export_mel", kind = "static")]
#[link(name = "export_pairs", kind = "static")]
#[link(name = "export_preparing", kind = "static")]
unsafe extern "C" {
    fn kipawnore_mc2b(c: In, nc: usize, alpha: f64, b: Out, nb: usize) -> u64;
    fn kipawnore_b2mc(b: In, nb: usize, alpha: f64, c: Out, nc: usize) -> u64;
    fn kipawnore_freqt(c: In, nc: usize, alpha: f64, warped: Out, nwarped: usize) -> u64;
    fn kipawnore_c2ir(c: In, nc: usize, ir: Out, nir: usize) -> u64;
    fn kipawnore_b2en(b: In, nb: usize, alpha: f64, energy: Out, nenergy: usize) -> u64;
    fn kipawnore_gnorm(c: Out, nc: usize, s: u64) -> u64;
    fn kipawnore_ignorm(c: Out, nc: usize, s: u64) -> u64;
    fn kipawnore_gc2gc(c: In, nc: usize, s: u64, d: Out, nd: usize) -> u64;
    fn kipawnore_postfilter_mcp(c: Out, nc: usize, alpha: f64, beta: f64) -> u64;
    fn kipawnore_lsp2lpc(lsp: In, nlsp: usize, lpc: Out, nlpc: usize) -> u64;
    fn kipawnore_lsp2mgc(
        lsp: In,
        nlsp: usize,
        log_gain: bool,
        s: u64,
        mgc: Out,
        nmgc: usize,
    ) -> u64;
    fn kipawnore_lsp2en(
        lsp: In,
        nlsp: usize,
        log_gain: bool,
        s: u64,
        energy: Out,
        nenergy: usize,
    ) -> u64;
    fn kipawnore_postfilter_lsp(lsp: Out, nlsp: usize, beta: f64, log_gain: bool, s: u64) -> u64;
    fn kipawnore_check_lsp_stability(lsp: Out, nlsp: usize) -> u64;
    fn kipawnore_prepare_mcp(
        spectrum: In,
        nspectrum: usize,
        alpha: f64,
        beta: f64,
        first: bool,
        start: Out,
        nstart: usize,
        targets: Out,
        ntargets: usize,
    ) -> u64;
    fn kipawnore_prepare_lsp(
        spectrum: In,
        nspectrum: usize,
        alpha: f64,
        beta: f64,
        log_gain: bool,
        s: u64,
        first: bool,
        start: Out,
        nstart: usize,
        targets: Out,
        ntargets: usize,
    ) -> u64;
}

/// Makes the call on copies of its arrays.
pub fn outcome(request: &Request) -> Outcome {
    let mut arrays = request.arrays.clone();
    let [nx, ny, nz] = request.lengths();
    let [x, y, z] = arrays.each_mut().map(|array| array.as_mut_ptr());
    let &Request {
        step,
        alpha,
        beta,
        stage: s,
        log_gain,
        first,
        ..
    } = request;
    // SAFETY: each pointer goes with the length of its array, and no array is another's.
    let number = unsafe {
        match step {
            Step::Mc2b => kipawnore_mc2b(x, nx, alpha, y, ny),
            Step::B2mc => kipawnore_b2mc(x, nx, alpha, y, ny),
            Step::Freqt => kipawnore_freqt(x, nx, alpha, y, ny),
            Step::C2ir => kipawnore_c2ir(x, nx, y, ny),
            Step::B2en => kipawnore_b2en(x, nx, alpha, y, ny),
            Step::Gnorm => kipawnore_gnorm(x, nx, s),
            Step::Ignorm => kipawnore_ignorm(x, nx, s),
            Step::Gc2gc => kipawnore_gc2gc(x, nx, s, y, ny),
            Step::PostfilterMcp => kipawnore_postfilter_mcp(x, nx, alpha, beta),
            Step::Lsp2lpc => kipawnore_lsp2lpc(x, nx, y, ny),
            Step::Lsp2mgc => kipawnore_lsp2mgc(x, nx, log_gain, s, y, ny),
            Step::Lsp2en => kipawnore_lsp2en(x, nx, log_gain, s, y, ny),
            Step::PostfilterLsp => kipawnore_postfilter_lsp(x, nx, beta, log_gain, s),
            Step::CheckLspStability => kipawnore_check_lsp_stability(x, nx),
            Step::PrepareMcp => kipawnore_prepare_mcp(x, nx, alpha, beta, first, y, ny, z, nz),
            Step::PrepareLsp => {
                kipawnore_prepare_lsp(x, nx, alpha, beta, log_gain, s, first, y, ny, z, nz)
            }
        }
    };
    Outcome { number, arrays }
}
