//! Uses the pinned Rust, so that a pin that does not build or run is noticed here.

use pinned::constants::{MAX_LF0, MIN_LF0, NODATA};
use pinned::vocoder::Vocoder;

const SAMPLES: usize = 240;

/// The condition of the pinned `mul_add!` (mlsa.rs): whether its filter rounds once where plain
/// multiplication and addition round twice.
pub const FUSED: bool = cfg!(any(
    all(target_arch = "x86_64", target_feature = "fma"),
    all(target_arch = "aarch64", target_feature = "neon"),
));

/// Renders a frame of each kind and prints the constants. False where this build is not to be
/// compared with: fma asked for, or a frame that is not finite.
pub fn run() -> bool {
    let finite = [0, 2]
        .into_iter()
        .all(|stage| frame(stage).iter().all(|sample| sample.is_finite()));
    println!(
        "pinned Rust: NODATA {NODATA:e}, MIN_LF0 {MIN_LF0}, MAX_LF0 {MAX_LF0}; \
         a frame at stage 0 and at stage 2: {}; fused multiply-add: {}",
        if finite { "finite" } else { "NOT FINITE" },
        if FUSED { "yes" } else { "no" }
    );
    if FUSED && !cfg!(target_feature = "fma") {
        println!(
            "note: for this processor the pinned filter is built fused, so its samples are not x86-64's; \
             nothing below depends on it"
        );
    }
    finite && !cfg!(target_feature = "fma")
}

/// One voiced frame: a short cepstrum at stage 0, a gain and line spectral pairs above.
fn frame(stage: usize) -> [f64; SAMPLES] {
    let spectrum: &[f64] = if stage == 0 {
        &[1.0, 0.5, 0.25, 0.1]
    } else {
        &[1.0, 0.6, 1.2, 1.8]
    };
    let mut vocoder = Vocoder::new(
        spectrum.len(),
        0,
        stage,
        false,
        48_000,
        0.5,
        0.25,
        1.0,
        SAMPLES,
    );
    let mut samples = [f64::NAN; SAMPLES];
    vocoder.synthesize(5.0, spectrum, &[], &mut samples);
    samples
}
