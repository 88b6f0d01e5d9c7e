//! The pinned Rust's filters: its files, unchanged, in modules as it has them.

use crate::filter_calls::Stretch;
use crate::spectra::coefficients;

#[path = "vocoder/mglsa.rs"]
mod mglsa;
#[path = "vocoder/mlsa.rs"]
mod mlsa;
// The filters make nothing of the stage and of gamma.
#[allow(dead_code)]
#[path = "vocoder/stage.rs"]
mod stage;

pub use stage::Stage;

/// What `synthesize` makes of a frame's excitation, from the coefficients that it starts with.
pub fn filter(stage: &mut Stage, stretch: Stretch) {
    let Stretch { alpha, volume, .. } = stretch;
    match stage {
        Stage::Zero {
            coefficients,
            filter,
        } => {
            **coefficients = stretch.coefficients.to_vec();
            for x in stretch.samples {
                if *x != 0.0 {
                    *x *= coefficients[0].exp();
                }
                filter.df(x, alpha, coefficients);
                grow(coefficients, stretch.increments);
                *x *= volume;
            }
        }
        Stage::NonZero {
            coefficients,
            filter,
            ..
        } => {
            **coefficients = stretch.coefficients.to_vec();
            for x in stretch.samples {
                *x *= coefficients[0];
                filter.df(x, alpha, coefficients);
                grow(coefficients, stretch.increments);
                *x *= volume;
            }
        }
    }
}

fn grow(coefficients: &mut [f64], increments: &[f64]) {
    for i in 0..coefficients.len() {
        coefficients[i] += increments[i];
    }
}
