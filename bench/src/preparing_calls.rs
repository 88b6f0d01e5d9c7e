//! The two functions of libexport_preparing.a, linked in.

#[link(name = "export_preparing", kind = "static")]
unsafe extern "C" {
    fn kipawnore_prepare_mcp(
        spectrum: *const f64,
        nspectrum: usize,
        alpha: f64,
        beta: f64,
        first: bool,
        start: *mut f64,
        nstart: usize,
        targets: *mut f64,
        ntargets: usize,
    ) -> u64;
    fn kipawnore_prepare_lsp(
        spectrum: *const f64,
        nspectrum: usize,
        alpha: f64,
        beta: f64,
        log_gain: bool,
        s: u64,
        first: bool,
        start: *mut f64,
        nstart: usize,
        targets: *mut f64,
        ntargets: usize,
    ) -> u64;
}

/// What is the same for every spectrum of a voice without log gain.
#[derive(Clone, Copy)]
pub struct Preparing {
    pub stage: u64,
    pub alpha: f64,
    pub beta: f64,
}

impl Preparing {
    /// The targets, and for a first frame the start, of a spectrum as long as they are.
    pub fn prepare(self, spectrum: &[f64], first: bool, start: &mut [f64], targets: &mut [f64]) {
        let Self { stage, alpha, beta } = self;
        let (from, n) = (spectrum.as_ptr(), spectrum.len());
        assert_eq!((start.len(), targets.len()), (n, n));
        let (start, to) = (start.as_mut_ptr(), targets.as_mut_ptr());
        // SAFETY: each of the three arrays has n entries.
        let number = unsafe {
            match stage {
                0 => kipawnore_prepare_mcp(from, n, alpha, beta, first, start, n, to, n),
                s => kipawnore_prepare_lsp(from, n, alpha, beta, false, s, first, start, n, to, n),
            }
        };
        assert_eq!(number, 0);
    }
}
