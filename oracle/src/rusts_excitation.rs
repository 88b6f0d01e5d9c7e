//! The Rust's own excitation: the routed copy's file, taken into this module, so that its private
//! state can be set and read. Its ln is `crate::routes::ln`, as in the routed copy.

use crate::excitation_structs::{Pulse, Random as Noise};
use crate::stretches::{Outcome, State};

include!("../routed/src/vocoder/excitation.rs");

/// The most that our `start` takes for fperiod.
const MOST_SAMPLES: u64 = 1 << 53;

/// The Rust's excitation, and the pitch that its caller hands to `end`.
pub struct Rusts {
    excitation: Excitation,
    end_pitch: f64,
}

impl Rusts {
    pub fn fresh(nlpf: usize) -> Self {
        Self {
            excitation: Excitation::new(nlpf),
            end_pitch: 0.0,
        }
    }

    /// Of a vocoder.
    pub fn of(excitation: Excitation, end_pitch: f64) -> Self {
        Self {
            excitation,
            end_pitch,
        }
    }

    pub fn into_excitation(self) -> Excitation {
        self.excitation
    }

    /// In a state, with tap 0 at place `index` of the ring.
    pub fn at(state: &State, index: usize) -> Self {
        let mut excitation = Excitation::new(state.line.len());
        excitation.pitch_of_curr_point = state.pulse.pitch;
        excitation.pitch_counter = state.pulse.counter;
        excitation.pitch_inc_per_point = state.pulse.increment;
        excitation.random.next = state.random.next as usize;
        excitation.random.used = state.random.used;
        excitation.random.queue = Box::new(state.random.queue);
        excitation.ring_buffer.buffer = state.line.clone();
        excitation.ring_buffer.buffer.rotate_right(index);
        excitation.ring_buffer.index = index;
        Self {
            excitation,
            end_pitch: state.pulse.end_pitch,
        }
    }

    pub fn state(&self) -> State {
        let excitation = &self.excitation;
        let mut line = excitation.ring_buffer.buffer.clone();
        line.rotate_left(excitation.ring_buffer.index);
        let queue = excitation.random.queue[..].try_into();
        State {
            pulse: Pulse {
                pitch: excitation.pitch_of_curr_point,
                counter: excitation.pitch_counter,
                increment: excitation.pitch_inc_per_point,
                end_pitch: self.end_pitch,
            },
            random: Noise {
                next: excitation.random.next as u64,
                used: excitation.random.used,
                queue: queue.expect("64 values"),
            },
            line,
        }
    }

    /// An unvoiced frame has the pitch 0.
    pub fn start(&mut self, voiced: bool, period: f64, fperiod: u64) {
        self.end_pitch = if voiced { period } else { 0.0 };
        let samples = fperiod.min(MOST_SAMPLES) as usize;
        self.excitation.start(self.end_pitch, samples);
    }

    pub fn stretch(&mut self, count: usize, lpf: &[f64]) -> Outcome {
        let samples = (0..count).map(|_| self.excitation.get(lpf)).collect();
        Outcome {
            made: count,
            samples,
            state: self.state(),
        }
    }

    pub fn end(&mut self) {
        self.excitation.end(self.end_pitch);
    }
}
