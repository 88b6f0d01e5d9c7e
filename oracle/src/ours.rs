//! Our functions: linked in from the archives (feature `linked`), or asked of the
//! bridge where this processor cannot run the archives.

use crate::bridge::Bridge;
#[cfg(feature = "linked")]
use crate::excitation_calls::{kipawnore_end, kipawnore_start};
use crate::excitation_structs::Pulse;
use crate::filter;
#[cfg(feature = "linked")]
use crate::linked;
use crate::rest::{Cut, CutOutcome, Saved};
use crate::sound::{Heard, Writing, Written};
#[cfg(feature = "linked")]
use crate::sound_calls;
use crate::spectrum;
#[cfg(feature = "linked")]
use crate::spectrum_calls;
use crate::stretches::{Outcome, Request};
use crate::voice;
#[cfg(feature = "linked")]
use crate::voice_calls::Voices;
use crate::voice_structs::{Configuration, Voice};

/// The most inputs in one block; the bridge has room for as many.
pub const BLOCK: usize = 1 << 16;

/// So many voices are kept side by side, each in its slot.
pub const SLOTS: usize = 4;

/// What to compute of a block of inputs. The numbers are the bridge's.
#[derive(Clone, Copy, PartialEq)]
pub enum Operation {
    Sqrt = 0,
    Multiply = 1,
    Add = 2,
    FloatOf = 3,
    BitsOf = 4,
    RoundTrip = 5,
    Exp = 6,
    Ln = 7,
    Cos = 8,
    InversePower = 9,
    InverseRoot = 10,
}

impl Operation {
    /// How many words make one input.
    pub fn arity(self) -> usize {
        match self {
            Operation::Multiply
            | Operation::Add
            | Operation::InversePower
            | Operation::InverseRoot => 2,
            _ => 1,
        }
    }
}

pub enum Ours {
    #[cfg(feature = "linked")]
    Linked(Box<Voices>),
    Bridge(Bridge),
}

impl Ours {
    /// The answers to a block of inputs, floats as their bits.
    pub fn answers(&mut self, operation: Operation, inputs: &[u64]) -> Vec<u64> {
        match self {
            #[cfg(feature = "linked")]
            Ours::Linked(_) => inputs
                .chunks(operation.arity())
                .map(|input| linked::answer(operation, input))
                .collect(),
            Ours::Bridge(bridge) => bridge.answers(operation, inputs),
        }
    }

    pub fn stretch(&mut self, request: &Request) -> Outcome {
        match self {
            #[cfg(feature = "linked")]
            Ours::Linked(_) => linked::stretch(request),
            Ours::Bridge(bridge) => bridge.stretch(request),
        }
    }

    pub fn start(&mut self, pulse: Pulse, voiced: bool, period: f64, fperiod: u64) -> Pulse {
        match self {
            #[cfg(feature = "linked")]
            Ours::Linked(_) => kipawnore_start(pulse, voiced, period, fperiod),
            Ours::Bridge(bridge) => bridge.start(pulse, voiced, period, fperiod),
        }
    }

    pub fn end(&mut self, pulse: Pulse) -> Pulse {
        match self {
            #[cfg(feature = "linked")]
            Ours::Linked(_) => kipawnore_end(pulse),
            Ours::Bridge(bridge) => bridge.end(pulse),
        }
    }

    pub fn spectrum(&mut self, request: &spectrum::Request) -> spectrum::Outcome {
        match self {
            #[cfg(feature = "linked")]
            Ours::Linked(_) => spectrum_calls::outcome(request),
            Ours::Bridge(bridge) => bridge.spectrum(request),
        }
    }

    pub fn filter(&mut self, request: &filter::Request) -> filter::Outcome {
        match self {
            #[cfg(feature = "linked")]
            Ours::Linked(_) => linked::filter(request),
            Ours::Bridge(bridge) => bridge.filter(request),
        }
    }

    /// Opens a voice in a slot.
    pub fn open(&mut self, slot: usize, configuration: Configuration) -> u64 {
        match self {
            #[cfg(feature = "linked")]
            Ours::Linked(voices) => voices.open(slot, configuration),
            Ours::Bridge(bridge) => bridge.open_voice(slot, configuration),
        }
    }

    pub fn call(&mut self, slot: usize, call: &voice::Call) -> voice::Outcome {
        match self {
            #[cfg(feature = "linked")]
            Ours::Linked(voices) => voices.call(slot, call),
            Ours::Bridge(bridge) => bridge.call_voice(slot, call),
        }
    }

    pub fn voice(&mut self, slot: usize) -> Voice {
        match self {
            #[cfg(feature = "linked")]
            Ours::Linked(voices) => voices.read(slot),
            Ours::Bridge(bridge) => bridge.read_voice(slot),
        }
    }

    pub fn set_voice(&mut self, slot: usize, voice: &Voice) {
        self.set_words(slot, &voice.words());
    }

    /// Puts the voice of these words into a slot, its NaNs as they are.
    pub fn set_words(&mut self, slot: usize, words: &[u64]) {
        match self {
            #[cfg(feature = "linked")]
            Ours::Linked(voices) => voices.write(slot, words),
            Ours::Bridge(bridge) => bridge.write_voice(slot, words),
        }
    }

    pub fn save(&mut self, slot: usize, buffer: &[u8]) -> Saved {
        match self {
            #[cfg(feature = "linked")]
            Ours::Linked(voices) => voices.save(slot, buffer),
            Ours::Bridge(bridge) => bridge.save_voice(slot, buffer),
        }
    }

    /// Restores into the voice in a slot.
    pub fn restore(&mut self, slot: usize, bytes: &[u8]) -> u64 {
        match self {
            #[cfg(feature = "linked")]
            Ours::Linked(voices) => voices.restore(slot, bytes),
            Ours::Bridge(bridge) => bridge.restore_voice(slot, bytes),
        }
    }

    /// Cuts the voice in a slot so many times.
    pub fn cut(&mut self, slot: usize, cuts: &[Cut]) -> Vec<CutOutcome> {
        match self {
            #[cfg(feature = "linked")]
            Ours::Linked(voices) => cuts.iter().map(|cut| voices.cut(slot, cut)).collect(),
            Ours::Bridge(bridge) => bridge.cut_voice(slot, cuts),
        }
    }

    pub fn write_sound(&mut self, writing: &Writing) -> Written {
        match self {
            #[cfg(feature = "linked")]
            Ours::Linked(_) => sound_calls::write(writing),
            Ours::Bridge(bridge) => bridge.write_sound(writing),
        }
    }

    pub fn read_sound(&mut self, bytes: &[u8], buffer: &[i32]) -> Heard {
        match self {
            #[cfg(feature = "linked")]
            Ours::Linked(_) => sound_calls::read(bytes, buffer),
            Ours::Bridge(bridge) => bridge.read_sound(bytes, buffer),
        }
    }

    /// Whether a call is handed its arrays where they stand. The bridge is sent them.
    pub fn is_handed_arrays(&self) -> bool {
        !matches!(self, Ours::Bridge(_))
    }
}
