//! The sound files of document 02's L4 as they are read: an own reading, chunk by chunk from the front.

use crate::sound::{Heard, OTHER_KIND, PAST_END, SHORT};
use crate::spectrum::DONE;

/// The tag of a format that tells by a number of 16 bytes what it is, and that number for PCM.
const EXTENSIBLE: u16 = 0xFFFE;
const PCM: [u8; 16] = [1, 0, 0, 0, 0, 0, 16, 0, 128, 0, 0, 170, 0, 56, 155, 113];

/// What is read of a file that is accepted.
struct Sound {
    bits: u64,
    rate: u64,
    numbers: Vec<i32>,
}

struct Format {
    /// The bytes of a sample.
    width: usize,
    rate: u64,
}

/// A chunk that begins, with all that stands behind its eight bytes.
struct Chunk<'a> {
    tag: &'a [u8],
    size: usize,
    behind: &'a [u8],
}

/// What a call that reads comes to.
pub fn heard(bytes: &[u8], buffer: &[i32]) -> Heard {
    let mut heard = Heard {
        number: DONE,
        bits: 0,
        rate: 0,
        count: 0,
        buffer: buffer.to_vec(),
    };
    match sound(bytes) {
        Err(number) => heard.number = number,
        Ok(sound) => {
            (heard.bits, heard.rate) = (sound.bits, sound.rate);
            heard.count = sound.numbers.len();
            match heard.buffer.get_mut(..heard.count) {
                None => heard.number = SHORT,
                Some(front) => front.copy_from_slice(&sound.numbers),
            }
        }
    }
    heard
}

/// The sound of a file, or the number that refuses it.
fn sound(bytes: &[u8]) -> Result<Sound, u64> {
    let (mut format, mut data): (Option<Format>, Option<&[u8]>) = (None, None);
    let mut rest = body(bytes)?;
    while !rest.is_empty() {
        let chunk = Chunk::first(rest)?;
        match (chunk.tag, &format, data) {
            (b"fmt ", None, _) => format = Some(chunk.format()?),
            (b"fmt ", Some(_), _) => return Err(OTHER_KIND),
            (b"data", Some(format), None) => data = Some(chunk.data(format)?),
            (b"data", ..) => return Err(OTHER_KIND),
            _ => _ = chunk.content()?,
        }
        rest = chunk.next();
    }
    match (format, data) {
        (Some(Format { width, rate }), Some(data)) => Ok(Sound {
            bits: 8 * width as u64,
            rate,
            numbers: data.chunks_exact(width).map(signed).collect(),
        }),
        _ => Err(OTHER_KIND),
    }
}

/// The chunks of a file, as far as its size goes.
fn body(bytes: &[u8]) -> Result<&[u8], u64> {
    match bytes {
        [b'R', b'I', b'F', b'F', a, b, c, d, rest @ ..] if rest.starts_with(b"WAVE") => {
            let size = four(&[*a, *b, *c, *d]);
            match rest.get(..size) {
                _ if size < 4 => Err(OTHER_KIND),
                None => Err(PAST_END),
                Some(counted) => Ok(&counted[4..]),
            }
        }
        _ => Err(OTHER_KIND),
    }
}

impl<'a> Chunk<'a> {
    fn first(bytes: &'a [u8]) -> Result<Self, u64> {
        match bytes.split_at_checked(8) {
            None => Err(PAST_END),
            Some((head, behind)) => Ok(Self {
                tag: &head[..4],
                size: four(&head[4..]),
                behind,
            }),
        }
    }

    fn content(&self) -> Result<&'a [u8], u64> {
        self.behind.get(..self.size).ok_or(PAST_END)
    }

    /// The bytes from the next chunk on: behind the pad of an odd one, which the last may lack.
    fn next(&self) -> &'a [u8] {
        let padded = self.size.next_multiple_of(2);
        self.behind.get(padded..).unwrap_or_default()
    }

    /// What the chunk says as a format. Its size comes first; what is in it counts once all of it is there.
    fn format(&self) -> Result<Format, u64> {
        if ![16, 18, 40].contains(&self.size) {
            return Err(OTHER_KIND);
        }
        let content = self.content()?;
        let of_pcm = match two(content) {
            1 => true,
            EXTENSIBLE => self.size == 40 && content[24..] == PCM,
            _ => false,
        };
        let [channels, block, bits] = [2, 12, 14].map(|at| two(&content[at..]));
        match (of_pcm, channels, block, bits) {
            (true, 1, 2, 16) | (true, 1, 3, 24) => Ok(Format {
                width: block.into(),
                rate: four(&content[4..]) as u64,
            }),
            _ => Err(OTHER_KIND),
        }
    }

    /// The bytes of the samples.
    fn data(&self, format: &Format) -> Result<&'a [u8], u64> {
        match self.size % format.width {
            0 => self.content(),
            _ => Err(OTHER_KIND),
        }
    }
}

/// The number of a sample's bytes.
fn signed(bytes: &[u8]) -> i32 {
    let mut word = [0; 4];
    word[4 - bytes.len()..].copy_from_slice(bytes);
    i32::from_le_bytes(word) >> (8 * (4 - bytes.len()))
}

/// The number of the first two bytes.
fn two(bytes: &[u8]) -> u16 {
    u16::from(bytes[0]) + 256 * u16::from(bytes[1])
}

/// The number of the first four bytes.
fn four(bytes: &[u8]) -> usize {
    usize::from(two(bytes)) + 65_536 * usize::from(two(&bytes[2..]))
}
