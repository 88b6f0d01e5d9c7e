//! The structs that the voice's C functions take and give by value.

use crate::excitation_structs::{Pulse, Random};
use crate::stretches::State;

/// How a voice is opened, in the order of a saved voice.
#[repr(C)]
#[derive(Clone, Copy)]
pub struct Configuration {
    pub nmcp: usize,
    pub nlpf: usize,
    pub stage: u64,
    pub log_gain: bool,
    pub rate: u64,
    pub alpha: f64,
    pub beta: f64,
    pub volume: f64,
    pub fperiod: usize,
    pub nodata: f64,
    pub low: f64,
    pub high: f64,
}

/// The taps of stage 0; row i of d21 is at i * nmcp.
#[repr(C)]
#[derive(Clone, Copy)]
pub struct Zero {
    pub d11: [f64; 6],
    pub d12: [f64; 6],
    pub d21: [f64; 384],
    pub d22: [f64; 6],
}

/// Of an array the first nlpf or nmcp entries are used; of the taps of the other stages row i is at i * nmcp.
#[repr(C)]
#[derive(Clone, Copy)]
pub struct Voice {
    pub configuration: Configuration,
    pub meter: u64,
    pub left: usize,
    pub first: bool,
    pub pulse: Pulse,
    pub line: [f64; 64],
    pub lpf: [f64; 64],
    pub random: Random,
    pub coefficients: [f64; 64],
    pub increments: [f64; 64],
    pub targets: [f64; 64],
    pub zero: Zero,
    pub nonzero: [f64; 512],
}

impl Configuration {
    /// What tells it from another, for a difference that is shown.
    pub fn shown(&self) -> String {
        let Self {
            nmcp,
            nlpf,
            stage,
            log_gain,
            rate,
            alpha,
            beta,
            volume,
            fperiod,
            ..
        } = self;
        format!(
            "nmcp {nmcp}, nlpf {nlpf}, stage {stage}, log gain {log_gain}, rate {rate}, alpha {alpha:e}, beta {beta:e}, \
             volume {volume:e}, fperiod {fperiod}"
        )
    }
}

impl Voice {
    /// The voice that is returned where a limit is broken: all zeros.
    pub fn idle() -> Self {
        Self::read(&mut std::iter::repeat(0)).expect("words without end")
    }

    /// The fresh voice of a configuration.
    pub fn fresh(configuration: Configuration) -> Self {
        Self {
            configuration,
            first: true,
            random: Random::FRESH,
            ..Self::idle()
        }
    }

    /// The excitation's part of it.
    pub fn excitation(&self) -> State {
        State {
            pulse: self.pulse,
            random: self.random,
            line: self.line[..self.configuration.nlpf].to_vec(),
        }
    }

    pub fn set_excitation(&mut self, state: &State) {
        (self.pulse, self.random) = (state.pulse, state.random);
        self.line[..state.line.len()].copy_from_slice(&state.line);
    }

    /// The taps of its stage, in the order of a saved voice.
    pub fn taps(&self) -> Vec<Vec<f64>> {
        let Configuration { nmcp, stage, .. } = self.configuration;
        let Zero { d11, d12, d21, d22 } = &self.zero;
        match stage {
            0 => vec![
                d11.to_vec(),
                d12.to_vec(),
                d22.to_vec(),
                d21[..6 * nmcp].to_vec(),
            ],
            _ => vec![self.nonzero[..stage as usize * nmcp].to_vec()],
        }
    }

    pub fn set_taps(&mut self, taps: &[Vec<f64>]) {
        match taps {
            [d11, d12, d22, d21] => {
                self.zero.d11.copy_from_slice(d11);
                self.zero.d12.copy_from_slice(d12);
                self.zero.d22.copy_from_slice(d22);
                self.zero.d21[..d21.len()].copy_from_slice(d21);
            }
            [d] => self.nonzero[..d.len()].copy_from_slice(d),
            _ => panic!("{} arrays of taps", taps.len()),
        }
    }
}
