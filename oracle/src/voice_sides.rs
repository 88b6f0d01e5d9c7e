//! The Rust's voice and ours through the same calls, ours in a slot of its own.

use crate::ours::Ours;
use crate::remembered::Remembered;
use crate::rest::Cut;
use crate::rest_records;
use crate::rusts_voice::Rusts;
use crate::spectrum::DONE;
use crate::voice::Call;
use crate::voice_structs::{Configuration, Voice};
use crate::voice_tally::Tally;
use std::cell::RefCell;
use std::rc::Rc;

/// Our functions twice: for the voices, and for the Rust, which asks once for each argument.
#[derive(Clone)]
pub struct Functions {
    pub voices: Rc<RefCell<Ours>>,
    pub remembered: Rc<Remembered>,
}

pub struct Sides {
    functions: Functions,
    slot: usize,
    pub rusts: Rusts,
}

impl Sides {
    /// Opens both, and compares the numbers and the voices, idle or fresh.
    pub fn open(
        functions: &Functions,
        slot: usize,
        configuration: Configuration,
        tally: &mut Tally,
    ) -> Self {
        let own = functions.voices.borrow_mut().open(slot, configuration);
        let (right, rusts) = Rusts::open(&functions.remembered, configuration);
        tally.open(&configuration, own, right);
        let sides = Self::beside(functions, slot, rusts);
        sides.compare(tally, "voice opened");
        sides
    }

    /// Both as a voice of any values.
    pub fn at(functions: &Functions, slot: usize, voice: &Voice, tally: &mut Tally) -> Self {
        tally.written();
        functions.voices.borrow_mut().set_voice(slot, voice);
        Self::beside(functions, slot, Rusts::at(&functions.remembered, *voice))
    }

    fn beside(functions: &Functions, slot: usize, rusts: Rusts) -> Self {
        Self {
            functions: functions.clone(),
            slot,
            rusts,
        }
    }

    /// Makes a call on both. Where it is refused, our voice must be the same before and after.
    pub fn call(&mut self, tally: &mut Tally, call: &Call) {
        let right = self.rusts.call(call);
        let before = (right.number != DONE).then(|| self.ours());
        let own = self.functions.voices.borrow_mut().call(self.slot, call);
        tally.call(self.rusts.configuration(), call, &own, &right);
        if let Some(before) = before {
            tally.voice("voice after a refusal", &self.ours(), &before);
        }
    }

    /// Saves ours into a buffer of so many bytes, and compares with the records of the Rust's.
    pub fn save(&self, tally: &mut Tally, length: usize) {
        let buffer = vec![0xA5; length];
        let own = self.functions.voices.borrow_mut().save(self.slot, &buffer);
        let right = rest_records::save(&self.rusts.voice(), &buffer);
        tally.saved(self.rusts.configuration(), &own, &right);
    }

    /// Cuts ours; the Rust's is only drawn from.
    pub fn cut(&mut self, tally: &mut Tally, cuts: &[Cut]) {
        let outcomes = self.functions.voices.borrow_mut().cut(self.slot, cuts);
        for (cut, own) in cuts.iter().zip(&outcomes) {
            let draw = cut.draw();
            let drawn = self.rusts.call(&draw);
            let configuration = self.rusts.configuration();
            tally.call(configuration, &draw, &own.drawn, &drawn);
            let saved = rest_records::save(&self.rusts.voice(), &cut.buffer());
            tally.cut_after(drawn.made, configuration, own, &saved);
        }
    }

    /// Compares the whole voices.
    pub fn compare(&self, tally: &mut Tally, what: &str) {
        tally.voice(what, &self.ours(), &self.rusts.voice());
    }

    fn ours(&self) -> Voice {
        self.functions.voices.borrow_mut().voice(self.slot)
    }
}
