//! The Rust's excitation and ours through the same calls, each in its own state.

use crate::excitation_tally::Tally;
use crate::ours::Ours;
use crate::rusts_excitation::Rusts;
use crate::stretches::{Request, State};
use std::cell::RefCell;

pub struct Sides<'a> {
    functions: &'a RefCell<Ours>,
    ours: State,
    rusts: Rusts,
}

impl<'a> Sides<'a> {
    /// Fresh voices.
    pub fn fresh(functions: &'a RefCell<Ours>, nlpf: usize) -> Self {
        Self {
            functions,
            ours: State::fresh(nlpf),
            rusts: Rusts::fresh(nlpf),
        }
    }

    /// Both in one state, with the Rust's tap 0 at place `index` of its ring.
    pub fn at(functions: &'a RefCell<Ours>, state: State, index: usize) -> Self {
        let rusts = Rusts::at(&state, index);
        Self {
            functions,
            ours: state,
            rusts,
        }
    }

    pub fn start(&mut self, tally: &mut Tally, voiced: bool, period: f64, fperiod: u64) {
        let pulse = self.ours.pulse;
        self.ours.pulse = self
            .functions
            .borrow_mut()
            .start(pulse, voiced, period, fperiod);
        self.rusts.start(voiced, period, fperiod);
        tally.state("start", &self.ours, &self.rusts.state());
    }

    pub fn stretch(&mut self, tally: &mut Tally, count: usize, lpf: &[f64]) {
        let request = Request {
            count,
            state: self.ours.clone(),
            lpf: lpf.to_vec(),
        };
        let ours = self.functions.borrow_mut().stretch(&request);
        let rusts = self.rusts.stretch(count, lpf);
        tally.outcome(&ours, &rusts);
        self.ours = ours.state;
    }

    pub fn end(&mut self, tally: &mut Tally) {
        self.ours.pulse = self.functions.borrow_mut().end(self.ours.pulse);
        self.rusts.end();
        tally.state("end", &self.ours, &self.rusts.state());
    }
}
