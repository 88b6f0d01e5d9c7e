//! The filters of libexport_filters.a, linked in.

#[link(name = "export_filters", kind = "static")]
unsafe extern "C" {
    fn kipawnore_mlsa_stretch(
        samples: *mut f64,
        nsamples: usize,
        c: *mut f64,
        nc: usize,
        increments: *const f64,
        nincrements: usize,
        alpha: f64,
        volume: f64,
        d11: *mut f64,
        nd11: usize,
        d12: *mut f64,
        nd12: usize,
        d21: *mut f64,
        nd21: usize,
        d22: *mut f64,
        nd22: usize,
    ) -> u64;
    fn kipawnore_mglsa_stretch(
        samples: *mut f64,
        nsamples: usize,
        c: *mut f64,
        nc: usize,
        increments: *const f64,
        nincrements: usize,
        alpha: f64,
        volume: f64,
        stages: u64,
        d: *mut f64,
        nd: usize,
    ) -> u64;
}

/// What is the same for both filters: the samples to turn, the coefficients to move on, and what by.
pub struct Stretch<'a> {
    pub samples: &'a mut [f64],
    pub coefficients: &'a mut [f64],
    pub increments: &'a [f64],
    pub alpha: f64,
    pub volume: f64,
}

/// With the taps in the order of a saved voice: d11, d12, d22, d21.
pub fn mlsa(stretch: Stretch, [d11, d12, d22, d21]: [&mut [f64]; 4]) -> u64 {
    // SAFETY: each pointer goes with the length of its slice.
    unsafe {
        kipawnore_mlsa_stretch(
            stretch.samples.as_mut_ptr(),
            stretch.samples.len(),
            stretch.coefficients.as_mut_ptr(),
            stretch.coefficients.len(),
            stretch.increments.as_ptr(),
            stretch.increments.len(),
            stretch.alpha,
            stretch.volume,
            d11.as_mut_ptr(),
            d11.len(),
            d12.as_mut_ptr(),
            d12.len(),
            d21.as_mut_ptr(),
            d21.len(),
            d22.as_mut_ptr(),
            d22.len(),
        )
    }
}

pub fn mglsa(stretch: Stretch, stages: u64, d: &mut [f64]) -> u64 {
    // SAFETY: each pointer goes with the length of its slice.
    unsafe {
        kipawnore_mglsa_stretch(
            stretch.samples.as_mut_ptr(),
            stretch.samples.len(),
            stretch.coefficients.as_mut_ptr(),
            stretch.coefficients.len(),
            stretch.increments.as_ptr(),
            stretch.increments.len(),
            stretch.alpha,
            stretch.volume,
            stages,
            d.as_mut_ptr(),
            d.len(),
        )
    }
}
