//! Why a call was refused.

use std::error::Error;
use std::fmt::{self, Display, Formatter};

/// A number of document 01's table, or from 20 on of document 02's. Where several apply, it is the first in the order 1, 2, 14, 3 to 13; in writing a sound
/// file 1, 22, 23; in reading one the first in the file, 20 before 21 at the same chunk, and 23 last.
#[derive(Clone, Copy, Debug, PartialEq, Eq, Hash)]
pub struct Refusal(u64);

impl Refusal {
    /// Open: a limit is broken. Sound: the rate is not 1 to 192,000.
    pub const LIMIT_BROKEN: Self = Self(1);
    /// All but open and restore: the voice is idle.
    pub const VOICE_IDLE: Self = Self(2);
    /// Give: samples of the last frame are left.
    pub const SAMPLES_LEFT: Self = Self(3);
    /// Give: the spectrum's length is not nmcp.
    pub const SPECTRUM_LENGTH: Self = Self(4);
    /// Give: the tap count is not nlpf.
    pub const TAP_COUNT: Self = Self(5);
    /// Give: log F0, a spectrum entry or a tap is not finite.
    pub const NOT_FINITE: Self = Self(6);
    /// Give: stage 1 or more, and a spectrum entry beyond 2^20 in size.
    pub const ENTRY_BEYOND: Self = Self(7);
    /// Give: the meter and fperiod come to more than 2^63 - 1.
    pub const METER_FULL: Self = Self(8);
    /// Give: preparing meets an argument outside ln, cos or power.
    pub const ARGUMENT_OUTSIDE: Self = Self(9);
    /// Draw: nothing is left to draw.
    pub const NOTHING_LEFT: Self = Self(10);
    /// Draw: the noise is dry. The samples made stand, and the meter tells how many. No state of the noise leads here.
    pub const NOISE_DRY: Self = Self(11);
    /// Save: the buffer is shorter than the records.
    pub const RECORDS_LONGER: Self = Self(12);
    /// Restore: the records are not acceptable.
    pub const RECORDS_WRONG: Self = Self(13);
    /// Whole frame: the buffer has less room than fperiod.
    pub const BUFFER_SHORT: Self = Self(14);
    /// Reading sound: the file is not RIFF WAVE, PCM, one channel, 16 or 24 bits.
    pub const NOT_SOUND_FILE: Self = Self(20);
    /// Reading sound: a chunk runs past the end.
    pub const CHUNK_PAST_END: Self = Self(21);
    /// Writing sound: a length does not fit the 32 bits that the file has for it.
    pub const TOO_LONG: Self = Self(22);
    /// Sound: the buffer is shorter than what goes into it.
    pub const ROOM_SHORT: Self = Self(23);

    /// The number in the documents' tables.
    pub fn number(self) -> u64 {
        self.0
    }

    /// What a call's number says: done, or refused.
    pub(crate) fn unless_done(number: u64) -> Result<(), Self> {
        match number {
            0 => Ok(()),
            _ => Err(Self(number)),
        }
    }
}

impl Display for Refusal {
    fn fmt(&self, to: &mut Formatter) -> fmt::Result {
        let why = match *self {
            Self::LIMIT_BROKEN => "a limit is broken",
            Self::VOICE_IDLE => "the voice is idle",
            Self::SAMPLES_LEFT => "samples of the last frame are left",
            Self::SPECTRUM_LENGTH => "the spectrum's length is not nmcp",
            Self::TAP_COUNT => "the tap count is not nlpf",
            Self::NOT_FINITE => "a number of the frame is not finite",
            Self::ENTRY_BEYOND => "a spectrum entry is beyond 2^20",
            Self::METER_FULL => "the meter is full",
            Self::ARGUMENT_OUTSIDE => "an argument is outside ln, cos or power",
            Self::NOTHING_LEFT => "nothing is left to draw",
            Self::NOISE_DRY => "the noise is dry",
            Self::RECORDS_LONGER => "the buffer is shorter than the records",
            Self::RECORDS_WRONG => "the records are not acceptable",
            Self::BUFFER_SHORT => "the buffer is shorter than a frame",
            Self::NOT_SOUND_FILE => "not a sound file of one channel and 16 or 24 bits",
            Self::CHUNK_PAST_END => "a chunk runs past the end",
            Self::TOO_LONG => "too long for a sound file",
            Self::ROOM_SHORT => "the buffer is too short",
            _ => "no number of the table",
        };
        write!(to, "refused by {}: {why}", self.0)
    }
}

impl Error for Refusal {}
