//! Saving and restoring a voice: what is asked, and what comes of it; also in words of 64 bits, as the bridge has them.

use crate::stretches::floats;
use crate::voice::{Call, Outcome};

/// What a save answers, and its buffer after it.
#[derive(PartialEq)]
pub struct Saved {
    pub number: u64,
    pub bytes: usize,
    pub buffer: Vec<u8>,
}

/// A cut: a draw into so much room, a save into a buffer of so many bytes and, where that is done, a restore into the voice in a
/// slot, which takes the place of the one that was drawn from.
#[derive(Clone, Copy)]
pub struct Cut {
    pub room: usize,
    pub length: usize,
    pub into: usize,
}

/// What comes of a cut: no restore where the save is refused.
pub struct CutOutcome {
    pub drawn: Outcome,
    pub saved: Saved,
    pub restored: Option<u64>,
}

/// What the buffers of a cut hold before it: the bridge fills them so too.
const SAMPLE_BEFORE: f64 = 1.0;
const BYTE_BEFORE: u8 = 0xA5;

/// The bridge's number of a restore that was not asked for.
pub const NOT_ASKED: u64 = u64::MAX;

impl Saved {
    /// The number, the bytes reported, the bytes of the buffer one by one.
    pub fn words(&self) -> impl Iterator<Item = u64> {
        let bytes = self.buffer.iter().map(|byte| u64::from(*byte));
        [self.number, self.bytes as u64].into_iter().chain(bytes)
    }

    /// Reads what the bridge answers, the buffer being so long.
    pub fn read(words: &mut impl Iterator<Item = u64>, length: usize) -> Option<Self> {
        Some(Self {
            number: words.next()?,
            bytes: words.next()? as usize,
            buffer: read_bytes(words, length)?,
        })
    }
}

impl Cut {
    pub fn draw(&self) -> Call {
        Call::draw(vec![SAMPLE_BEFORE; self.room], 0)
    }

    pub fn buffer(&self) -> Vec<u8> {
        vec![BYTE_BEFORE; self.length]
    }

    pub fn words(&self) -> [u64; 3] {
        [self.room, self.length, self.into].map(|number| number as u64)
    }

    /// How many words the bridge answers.
    pub fn answers(&self) -> usize {
        5 + self.room + self.length.div_ceil(8)
    }
}

impl CutOutcome {
    /// Reads what the bridge answers to a cut.
    pub fn read(words: &mut impl Iterator<Item = u64>, cut: &Cut) -> Option<Self> {
        let (drawn, made) = (words.next()?, words.next()?);
        let (saved, bytes) = (words.next()?, words.next()?);
        let restored = words.next()?;
        let samples = floats(words, cut.room)?;
        Some(Self {
            drawn: Outcome {
                number: drawn,
                made: made as usize,
                buffer: samples,
            },
            saved: Saved {
                number: saved,
                bytes: bytes as usize,
                buffer: read_bytes(words, cut.length)?,
            },
            restored: (restored != NOT_ASKED).then_some(restored),
        })
    }
}

/// How many bytes, then the bytes, in whole words.
pub fn byte_words(bytes: &[u8]) -> Vec<u64> {
    let (words, rest) = bytes.as_chunks::<8>();
    let mut last = [0; 8];
    last[..rest.len()].copy_from_slice(rest);
    let last = (!rest.is_empty()).then_some(last);
    let words = words.iter().copied().chain(last).map(u64::from_le_bytes);
    [bytes.len() as u64].into_iter().chain(words).collect()
}

/// So many bytes out of whole words.
pub fn read_bytes(words: &mut impl Iterator<Item = u64>, length: usize) -> Option<Vec<u8>> {
    let mut bytes = Vec::with_capacity(length + 7);
    for _ in 0..length.div_ceil(8) {
        bytes.extend(words.next()?.to_le_bytes());
    }
    bytes.truncate(length);
    Some(bytes)
}
