//! The calls on sound files on both sides: by our functions, and by our reading of document 02.

use crate::generator::Generator;
use crate::ours::Ours;
use crate::sound::{Heard, SHORT, What, Writing, Written};
use crate::sound_reading::heard;
use crate::sound_silence::zeros;
use crate::sound_tally::Tally;
use crate::sound_writing::written;
use crate::spectrum::DONE;
use std::cell::RefCell;

/// What the entries of a buffer hold before a reading: no number of a sample.
const BEFORE: i32 = 0x5A5A_5A5A;

/// So many entries more than a reading needs.
const MORE: usize = 2;

pub struct Sides<'a> {
    ours: &'a RefCell<Ours>,
    pub tally: Tally,
}

impl<'a> Sides<'a> {
    pub fn new(name: &str, unit: &'static str, ours: &'a RefCell<Ours>) -> Self {
        Self {
            ours,
            tally: Tally::new(name, unit),
        }
    }

    /// More zeros than memory might hold, where they can be handed over.
    pub fn zeros(&self, count: usize) -> Option<&'static [f64]> {
        let handed = self.ours.borrow().is_handed_arrays();
        if handed { zeros(count) } else { None }
    }

    /// Writes; gives what ours did.
    pub fn write(&mut self, writing: &Writing) -> Written {
        let own = self.ours.borrow_mut().write_sound(writing);
        self.tally.written(writing, &own, &written(writing));
        own
    }

    /// Writes into so much room, which holds other bytes before.
    pub fn write_into(
        &mut self,
        room: usize,
        what: What,
        bits: u64,
        random: &mut Generator,
    ) -> Written {
        let buffer: Vec<u8> = (0..room).map(|_| random.word() as u8).collect();
        self.write(&Writing {
            what,
            bits,
            buffer: &buffer,
        })
    }

    /// Reads into so much room.
    pub fn read(&mut self, what: impl Fn() -> String, bytes: &[u8], room: usize) {
        let buffer = vec![BEFORE; room];
        let right = heard(bytes, &buffer);
        self.read_as(what, bytes, &buffer, &right);
    }

    /// Reads into a buffer; what is right is known.
    pub fn read_as(
        &mut self,
        what: impl Fn() -> String,
        bytes: &[u8],
        buffer: &[i32],
        right: &Heard,
    ) {
        let own = self.ours.borrow_mut().read_sound(bytes, buffer);
        self.tally.heard(what, &own, right);
    }

    /// Reads with more room than there are samples, or than so many where there are none, and again with one place too few.
    pub fn read_twice(&mut self, what: impl Fn() -> String, bytes: &[u8], usual: usize) {
        let Heard { number, count, .. } = heard(bytes, &[]);
        let count = match number {
            DONE | SHORT => count,
            _ => usual,
        };
        self.read(&what, bytes, count + MORE);
        self.read(&what, bytes, count.max(1) - 1);
    }
}
