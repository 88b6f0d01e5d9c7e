//! Sound files: RIFF WAVE, PCM, one channel, 16 or 24 bits, written whole or in pieces, and read. The five calls are those of libexport_sound.a, proved for
//! every input; what they answer is document 02's (L4).
//!
//! The scale of a sample: 1.0 is one step of 16 bits, so full scale is 32,768 and not 1. The number written is the sample, at 24 bits 256 times
//! it, rounded to nearest, ties to even. One outside what the bits hold is held to their end and counted; a NaN is 0.
//!
//! ```
//! use kipawnore::Refusal;
//! use kipawnore::sound::{self, Heard, Width, Written};
//!
//! let samples = [1.5, -2.5, 40_000.0];
//! let mut file = [0; sound::HEADER_BYTES + 2 * 3];
//! let written = sound::write(Width::Sixteen, 16_000, &samples, &mut file)?;
//! assert_eq!(written, Written { bytes: 50, held: 1 });
//!
//! let mut numbers = [0; 3];
//! let heard = sound::read(&file, &mut numbers)?;
//! assert_eq!(heard, Heard { width: Width::Sixteen, rate: 16_000, count: 3 });
//! assert_eq!(numbers, [2, -2, 32_767]);
//! # Ok::<(), Refusal>(())
//! ```

use crate::{Refusal, calls, structs};

/// The bytes of a file before its samples.
pub const HEADER_BYTES: usize = 44;

/// The bits of a sample in a file.
#[derive(Clone, Copy, Debug, PartialEq, Eq, Hash)]
pub enum Width {
    /// 16 bits: numbers from -32,768 to 32,767.
    Sixteen,
    /// 24 bits: numbers from -8,388,608 to 8,388,607, 256 to a step of 16 bits.
    TwentyFour,
}

impl Width {
    /// 16 or 24.
    pub const fn bits(self) -> u64 {
        match self {
            Self::Sixteen => 16,
            Self::TwentyFour => 24,
        }
    }

    /// The bytes of a sample, 2 or 3.
    pub const fn bytes(self) -> usize {
        match self {
            Self::Sixteen => 2,
            Self::TwentyFour => 3,
        }
    }

    /// The most samples of a file.
    pub const fn most_samples(self) -> usize {
        match self {
            Self::Sixteen => 2_147_483_629,
            Self::TwentyFour => 1_431_655_752,
        }
    }
}

/// What was written.
#[derive(Clone, Copy, Debug, PartialEq, Eq)]
pub struct Written {
    /// From the front of the buffer. The rest of it stays.
    pub bytes: usize,
    /// The samples that were held back.
    pub held: usize,
}

/// What a file is.
#[derive(Clone, Copy, Debug, PartialEq, Eq)]
pub struct Heard {
    /// The bits of its samples.
    pub width: Width,
    /// Samples a second, whatever the file says.
    pub rate: u64,
    /// How many samples it has.
    pub count: usize,
}

/// A file of samples: [`HEADER_BYTES`], 2 or 3 bytes a sample, and one more where these are odd.
pub fn write(width: Width, rate: u64, samples: &[f64], out: &mut [u8]) -> Result<Written, Refusal> {
    let (from, to) = (samples.as_ptr(), out.as_mut_ptr());
    // SAFETY: the pointers are those of the slices, which do not overlap.
    written(unsafe {
        calls::kipawnore_write_sound(width.bits(), rate, from, samples.len(), to, out.len())
    })
}

/// The first piece of a file: the [`HEADER_BYTES`] before so many samples.
pub fn header(width: Width, rate: u64, count: usize, out: &mut [u8]) -> Result<Written, Refusal> {
    // SAFETY: the pointer is that of the slice.
    written(unsafe {
        calls::kipawnore_sound_header(width.bits(), rate, count, out.as_mut_ptr(), out.len())
    })
}

/// A piece of a file: the bytes of any part of its samples. The parts follow one another.
pub fn part(width: Width, samples: &[f64], out: &mut [u8]) -> Result<Written, Refusal> {
    let (from, to) = (samples.as_ptr(), out.as_mut_ptr());
    // SAFETY: the pointers are those of the slices, which do not overlap.
    written(unsafe {
        calls::kipawnore_sound_part(width.bits(), from, samples.len(), to, out.len())
    })
}

/// The last piece of a file: the 0 or 1 bytes after so many samples.
pub fn pad(width: Width, count: usize, out: &mut [u8]) -> Result<Written, Refusal> {
    // SAFETY: the pointer is that of the slice.
    written(unsafe { calls::kipawnore_sound_pad(width.bits(), count, out.as_mut_ptr(), out.len()) })
}

/// The numbers of a file, from the front of `numbers`; unknown chunks are skipped. A file of n bytes has fewer than n / 2, and [`count`] tells how many.
pub fn read(bytes: &[u8], numbers: &mut [i32]) -> Result<Heard, Refusal> {
    let heard = ask(bytes, numbers);
    Refusal::unless_done(heard.number).map(|()| told(&heard))
}

/// What a file is, none of its numbers read. It is refused where reading it would be, room aside.
pub fn count(bytes: &[u8]) -> Result<Heard, Refusal> {
    let heard = ask(bytes, &mut []);
    match Refusal::unless_done(heard.number) {
        Ok(()) | Err(Refusal::ROOM_SHORT) => Ok(told(&heard)),
        Err(why) => Err(why),
    }
}

fn ask(bytes: &[u8], numbers: &mut [i32]) -> structs::Heard {
    let (from, to) = (bytes.as_ptr(), numbers.as_mut_ptr());
    // SAFETY: the pointers are those of the slices, which do not overlap.
    unsafe { calls::kipawnore_read_sound(from, bytes.len(), to, numbers.len()) }
}

/// What the reader tells of a file that it takes, or would take with more room.
fn told(heard: &structs::Heard) -> Heard {
    let width = match heard.bits {
        24 => Width::TwentyFour,
        _ => Width::Sixteen,
    };
    Heard {
        width,
        rate: heard.rate,
        count: heard.count,
    }
}

fn written(answer: structs::Written) -> Result<Written, Refusal> {
    Refusal::unless_done(answer.number).map(|()| Written {
        bytes: answer.bytes,
        held: answer.held,
    })
}
