//! Saving and restoring by libexport_voice.a, linked in.

use crate::rest::Saved;
use crate::voice_calls::Answered;
use crate::voice_structs::Voice;

#[repr(C)]
struct Reported {
    number: u64,
    bytes: usize,
}

#[link(name = "export_voice", kind = "static")]
unsafe extern "C" {
    fn kipawnore_save(voice: Voice, out: *mut u8, len: usize) -> Reported;
    fn kipawnore_restore(voice: Voice, bytes: *const u8, len: usize) -> Answered;
}

/// Saves into a copy of the buffer.
pub fn save(voice: &Voice, buffer: &[u8]) -> Saved {
    let mut buffer = buffer.to_vec();
    // SAFETY: the pointer goes with the length of its slice.
    let Reported { number, bytes } =
        unsafe { kipawnore_save(*voice, buffer.as_mut_ptr(), buffer.len()) };
    Saved {
        number,
        bytes,
        buffer,
    }
}

pub fn restore(voice: &Voice, bytes: &[u8]) -> Answered {
    // SAFETY: the pointer goes with the length of its slice.
    unsafe { kipawnore_restore(*voice, bytes.as_ptr(), bytes.len()) }
}
