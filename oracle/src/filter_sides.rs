//! The Rust's filter and ours through the same calls, each from its own coefficients and taps.

use crate::filter::{Arrays, Filter, Request};
use crate::filter_tally::Tally;
use crate::ours::Ours;
use crate::rusts_filter::Rusts;
use std::cell::RefCell;

pub struct Sides<'a> {
    functions: &'a RefCell<Ours>,
    /// The last call of ours, with the coefficients and taps as they are after it.
    ours: Request,
    rusts: Rusts,
}

impl<'a> Sides<'a> {
    /// Fresh filters; the coefficients come with the first frame.
    pub fn fresh(
        functions: &'a RefCell<Ours>,
        filter: Filter,
        nmcp: usize,
        alpha: f64,
        volume: f64,
    ) -> Self {
        let arrays = Arrays {
            samples: Vec::new(),
            coefficients: vec![0.0; nmcp],
            increments: vec![0.0; nmcp],
            taps: filter.fresh(nmcp),
        };
        Self {
            functions,
            ours: Request {
                filter,
                alpha,
                volume,
                arrays,
            },
            rusts: Rusts::fresh(filter, nmcp),
        }
    }

    /// Both with the coefficients and taps of a call.
    pub fn at(functions: &'a RefCell<Ours>, request: &Request) -> Self {
        Self {
            functions,
            ours: request.clone(),
            rusts: Rusts::at(request),
        }
    }

    /// Gives both sides the coefficients from which a frame goes, and what they grow by at each sample.
    pub fn start(&mut self, coefficients: &[f64], increments: &[f64]) {
        self.ours.arrays.coefficients = coefficients.to_vec();
        self.ours.arrays.increments = increments.to_vec();
        self.rusts.set_coefficients(coefficients);
    }

    /// Turns samples on both sides, and compares all that is there after it.
    pub fn stretch(&mut self, tally: &mut Tally, samples: &[f64]) {
        self.ours.arrays.samples = samples.to_vec();
        let ours = self.functions.borrow_mut().filter(&self.ours);
        let rusts = self.rusts.stretch(&self.ours);
        tally.compare(&self.ours, &ours, &rusts);
        self.ours.arrays.coefficients = ours.arrays.coefficients;
        self.ours.arrays.taps = ours.arrays.taps;
    }
}
