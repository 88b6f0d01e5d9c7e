//! The calls on sound files: what is asked, and what comes of it; also in words of 64 bits, as the bridge has them.

use crate::rest::{byte_words, read_bytes};

/// The numbers that they answer beside DONE and LIMIT: not this kind of file, a chunk that runs past the end, too long, too little room.
pub const OTHER_KIND: u64 = 20;
pub const PAST_END: u64 = 21;
pub const TOO_LONG: u64 = 22;
pub const SHORT: u64 = 23;

/// The bridge's number of a reading; those of the writings are in `What::number`.
const READ: u64 = 4;

/// What is written: a whole file, what stands before its samples, some of its samples, the pad behind so many of them.
#[derive(Clone, Copy)]
pub enum What<'a> {
    File { rate: u64, samples: &'a [f64] },
    Header { rate: u64, count: usize },
    Part { samples: &'a [f64] },
    Pad { count: usize },
}

/// A call that writes with so many bits a sample, into a copy of the buffer.
#[derive(Clone, Copy)]
pub struct Writing<'a> {
    pub what: What<'a>,
    pub bits: u64,
    pub buffer: &'a [u8],
}

/// What it answers, and its buffer after it.
#[derive(PartialEq)]
pub struct Written {
    pub number: u64,
    pub bytes: usize,
    pub held: usize,
    pub buffer: Vec<u8>,
}

/// What a call that reads answers, and its buffer after it.
#[derive(PartialEq)]
pub struct Heard {
    pub number: u64,
    pub bits: u64,
    pub rate: u64,
    pub count: usize,
    pub buffer: Vec<i32>,
}

impl<'a> What<'a> {
    pub fn name(&self) -> &'static str {
        match self {
            What::File { .. } => "file",
            What::Header { .. } => "header",
            What::Part { .. } => "part",
            What::Pad { .. } => "pad",
        }
    }

    pub fn rate(&self) -> Option<u64> {
        match *self {
            What::File { rate, .. } | What::Header { rate, .. } => Some(rate),
            What::Part { .. } | What::Pad { .. } => None,
        }
    }

    /// The samples that it is about, given or only counted.
    pub fn count(&self) -> usize {
        match *self {
            What::File { samples, .. } | What::Part { samples } => samples.len(),
            What::Header { count, .. } | What::Pad { count } => count,
        }
    }

    pub fn samples(&self) -> &'a [f64] {
        match *self {
            What::File { samples, .. } | What::Part { samples } => samples,
            What::Header { .. } | What::Pad { .. } => &[],
        }
    }

    /// The bridge's number.
    fn number(&self) -> u64 {
        match self {
            What::File { .. } => 0,
            What::Header { .. } => 1,
            What::Part { .. } => 2,
            What::Pad { .. } => 3,
        }
    }
}

impl Writing<'_> {
    /// What the bridge is sent: the call, bits, rate, count, then samples and buffer as bytes.
    pub fn words(&self) -> Vec<u64> {
        let what = &self.what;
        let rate = what.rate().unwrap_or(0);
        let samples = what.samples().iter();
        let samples: Vec<u8> = samples.flat_map(|x| x.to_bits().to_le_bytes()).collect();
        let mut words = vec![what.number(), self.bits, rate, what.count() as u64];
        words.extend(byte_words(&samples));
        words.extend(byte_words(self.buffer));
        words
    }
}

impl Written {
    /// The number, the bytes reported, the samples held back, the bytes of the buffer one by one.
    pub fn numbers(&self) -> impl Iterator<Item = i128> {
        let bytes = self.buffer.iter().map(|byte| i128::from(*byte));
        [self.number, self.bytes as u64, self.held as u64]
            .map(i128::from)
            .into_iter()
            .chain(bytes)
    }

    /// Reads what the bridge answers, the buffer being so long.
    pub fn read(words: &mut impl Iterator<Item = u64>, length: usize) -> Option<Self> {
        let [number, bytes, held, _] = four(words)?;
        Some(Self {
            number,
            bytes: bytes as usize,
            held: held as usize,
            buffer: read_bytes(words, length)?,
        })
    }
}

impl Heard {
    /// What the bridge is sent: as of a writing, with the file in the place of the samples.
    pub fn asked(bytes: &[u8], buffer: &[i32]) -> Vec<u64> {
        let buffer: Vec<u8> = buffer.iter().flat_map(|x| x.to_le_bytes()).collect();
        let mut words = vec![READ, 0, 0, 0];
        words.extend(byte_words(bytes));
        words.extend(byte_words(&buffer));
        words
    }

    /// The number, bits, rate, count, then the entries of the buffer.
    pub fn numbers(&self) -> impl Iterator<Item = i128> {
        let entries = self.buffer.iter().map(|entry| i128::from(*entry));
        [self.number, self.bits, self.rate, self.count as u64]
            .map(i128::from)
            .into_iter()
            .chain(entries)
    }

    /// Reads what the bridge answers, the buffer having so many entries.
    pub fn read(words: &mut impl Iterator<Item = u64>, entries: usize) -> Option<Self> {
        let [number, bits, rate, count] = four(words)?;
        let bytes = read_bytes(words, 4 * entries)?;
        let (buffer, _) = bytes.as_chunks::<4>();
        Some(Self {
            number,
            bits,
            rate,
            count: count as usize,
            buffer: buffer.iter().map(|x| i32::from_le_bytes(*x)).collect(),
        })
    }
}

/// How many words the bridge answers to a call with a buffer of so many bytes.
pub fn answers(length: usize) -> usize {
    4 + length.div_ceil(8)
}

fn four(words: &mut impl Iterator<Item = u64>) -> Option<[u64; 4]> {
    Some([words.next()?, words.next()?, words.next()?, words.next()?])
}
