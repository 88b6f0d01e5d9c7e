//! A call of a voice: what it is given, and what comes of it; also in words of 64 bits, as the bridge and the fixed list
//! have them.

use crate::comparison::one_nan;
use crate::frames::Frame;
use crate::stretches::{bits, floats};

/// The calls, under the bridge's numbers and the list's.
#[derive(Clone, Copy, PartialEq)]
pub enum Kind {
    Give = 0,
    Draw = 1,
    WholeFrame = 2,
}

impl Kind {
    pub fn name(self) -> &'static str {
        match self {
            Kind::Give => "give",
            Kind::Draw => "draw",
            Kind::WholeFrame => "whole frame",
        }
    }
}

/// A call. The frame is empty for a draw, the buffer for a give.
pub struct Call {
    pub kind: Kind,
    pub frame: Frame,
    /// The whole buffer as it is before; the samples go to `start` and on.
    pub buffer: Vec<f64>,
    pub start: usize,
}

/// What a call answers, no samples made by a give, and its buffer after it.
pub struct Outcome {
    pub number: u64,
    pub made: usize,
    pub buffer: Vec<f64>,
}

impl Call {
    pub fn give(frame: Frame) -> Self {
        Self::whole_frame(frame, Vec::new(), 0).of_kind(Kind::Give)
    }

    pub fn draw(buffer: Vec<f64>, start: usize) -> Self {
        let none = Frame {
            lf0: 0.0,
            spectrum: Vec::new(),
            lpf: Vec::new(),
        };
        Self::whole_frame(none, buffer, start).of_kind(Kind::Draw)
    }

    pub fn whole_frame(frame: Frame, buffer: Vec<f64>, start: usize) -> Self {
        Self {
            kind: Kind::WholeFrame,
            frame,
            buffer,
            start,
        }
    }

    fn of_kind(self, kind: Kind) -> Self {
        Self { kind, ..self }
    }

    /// How many samples the buffer has room for; a start past the end counts as none.
    pub fn room(&self) -> usize {
        self.buffer.len().saturating_sub(self.start)
    }

    /// Lf0, the lengths of spectrum, taps and buffer, the start, the three arrays.
    pub fn words(&self) -> Vec<u64> {
        let Frame { lf0, spectrum, lpf } = &self.frame;
        let lengths = [spectrum, lpf, &self.buffer].map(|array| array.len() as u64);
        let mut words = vec![one_nan(lf0.to_bits())];
        words.extend(lengths);
        words.push(self.start as u64);
        words.extend(bits(spectrum).chain(bits(lpf)).chain(bits(&self.buffer)));
        words
    }
}

impl Outcome {
    /// The number, the samples made, the buffer.
    pub fn words(&self) -> Vec<u64> {
        let mut words = vec![self.number, self.made as u64];
        words.extend(bits(&self.buffer));
        words
    }

    /// Reads what the bridge answers, the buffer being so long.
    pub fn read(words: &mut impl Iterator<Item = u64>, room: usize) -> Option<Self> {
        Some(Self {
            number: words.next()?,
            made: words.next()? as usize,
            buffer: floats(words, room)?,
        })
    }
}
