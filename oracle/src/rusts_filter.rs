//! The Rust's own filters: the routed copy's files, in modules as the copy has them, so that their private
//! taps can be set and read. `mul_add!` is the plain one there; the gain's exp is that of `crate::routes`.

use crate::filter::{Filter, Outcome, Request};
use crate::routes;
use crate::rusts_spectrum::coefficients;
use crate::spectrum::DONE;
use stage::Stage;

pub mod mlsa {
    include!("../routed/src/vocoder/mlsa.rs");

    impl MelLogSpectrumApproximation<6> {
        pub fn set(&mut self, taps: &[Vec<f64>]) {
            let [d11, d12, d22, d21] = taps else {
                panic!("{} arrays of taps at stage 0", taps.len());
            };
            self.d11.copy_from_slice(d11);
            self.d12.copy_from_slice(d12);
            self.d22.copy_from_slice(d22);
            let nmcp = self.d21[0].len();
            for (row, taps) in self.d21.iter_mut().zip(d21.chunks(nmcp)) {
                row.copy_from_slice(taps);
            }
        }

        pub fn taps(&self) -> Vec<Vec<f64>> {
            let [d11, d12, d22] = [self.d11, self.d12, self.d22].map(|d| d.to_vec());
            vec![d11, d12, d22, self.d21.concat()]
        }
    }

    /// `fir`, which is private.
    pub fn filtered(d: &mut [f64], x: f64, alpha: f64, c: &[f64]) -> f64 {
        fir(d, x, alpha, c)
    }
}

pub mod mglsa {
    include!("../routed/src/vocoder/mglsa.rs");

    impl MelGeneralizedLogSpectrumApproximation {
        pub fn set(&mut self, taps: &[Vec<f64>]) {
            let nmcp = self.d[0].len();
            for (row, taps) in self.d.iter_mut().zip(taps[0].chunks(nmcp)) {
                row.copy_from_slice(taps);
            }
        }

        pub fn taps(&self) -> Vec<Vec<f64>> {
            vec![self.d.concat()]
        }
    }
}

pub mod stage {
    include!("../routed/src/vocoder/stage.rs");
}

/// The Rust's filter of a stage, with its coefficients.
pub struct Rusts {
    stage: Stage,
}

impl Rusts {
    /// Of a fresh voice; the coefficients come with its first frame.
    pub fn fresh(filter: Filter, nmcp: usize) -> Self {
        Self {
            stage: Stage::new(filter.stage() as usize, nmcp),
        }
    }

    /// Of a vocoder.
    pub fn of(stage: Stage) -> Self {
        Self { stage }
    }

    pub fn into_stage(self) -> Stage {
        self.stage
    }

    /// With the coefficients and taps that a call is given.
    pub fn at(request: &Request) -> Self {
        let arrays = &request.arrays;
        let mut rusts = Self::fresh(request.filter, arrays.coefficients.len());
        rusts.set_coefficients(&arrays.coefficients);
        match &mut rusts.stage {
            Stage::Zero { filter, .. } => filter.set(&arrays.taps),
            Stage::NonZero { filter, .. } => filter.set(&arrays.taps),
        }
        rusts
    }

    pub fn set_coefficients(&mut self, values: &[f64]) {
        match &mut self.stage {
            Stage::Zero { coefficients, .. } => **coefficients = values.to_vec(),
            Stage::NonZero { coefficients, .. } => **coefficients = values.to_vec(),
        }
    }

    /// Turns the samples of a call by its increments, alpha and volume, from the state it is itself in.
    pub fn stretch(&mut self, request: &Request) -> Outcome {
        let mut arrays = request.arrays.clone();
        for x in &mut arrays.samples {
            *x = self.sample(*x, request);
        }
        (arrays.coefficients, arrays.taps) = self.coefficients_and_taps();
        Outcome {
            number: DONE,
            arrays,
        }
    }

    pub fn coefficients_and_taps(&self) -> (Vec<f64>, Vec<Vec<f64>>) {
        match &self.stage {
            Stage::Zero {
                coefficients,
                filter,
            } => (coefficients.to_vec(), filter.taps()),
            Stage::NonZero {
                coefficients,
                filter,
                ..
            } => (coefficients.to_vec(), filter.taps()),
        }
    }

    /// What `synthesize` does with a sample of the excitation.
    fn sample(&mut self, mut x: f64, request: &Request) -> f64 {
        let coefficients: &mut [f64] = match &mut self.stage {
            Stage::Zero {
                coefficients,
                filter,
            } => {
                if x != 0.0 {
                    x *= routes::exp(coefficients[0]);
                }
                filter.df(&mut x, request.alpha, coefficients);
                coefficients
            }
            Stage::NonZero {
                coefficients,
                filter,
                ..
            } => {
                x *= coefficients[0];
                filter.df(&mut x, request.alpha, coefficients);
                coefficients
            }
        };
        for (coefficient, increment) in coefficients.iter_mut().zip(&request.arrays.increments) {
            *coefficient += increment;
        }
        x * request.volume
    }
}
