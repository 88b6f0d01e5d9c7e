//! The calls of libexport_sound.a, linked in.

use crate::sound::{Heard, What, Writing, Written};

#[repr(C)]
struct Reported {
    number: u64,
    bytes: usize,
    held: usize,
}

#[repr(C)]
struct Told {
    number: u64,
    bits: u64,
    rate: u64,
    count: usize,
}

#[link(name = "export_sound", kind = "static")]
unsafe extern "C" {
    fn kipawnore_write_sound(
        bits: u64,
        rate: u64,
        samples: *const f64,
        nsamples: usize,
        out: *mut u8,
        nout: usize,
    ) -> Reported;
    fn kipawnore_sound_header(
        bits: u64,
        rate: u64,
        count: usize,
        out: *mut u8,
        nout: usize,
    ) -> Reported;
    fn kipawnore_sound_part(
        bits: u64,
        samples: *const f64,
        nsamples: usize,
        out: *mut u8,
        nout: usize,
    ) -> Reported;
    fn kipawnore_sound_pad(bits: u64, count: usize, out: *mut u8, nout: usize) -> Reported;
    fn kipawnore_read_sound(bytes: *const u8, nbytes: usize, out: *mut i32, nout: usize) -> Told;
}

/// Writes into a copy of the buffer.
pub fn write(writing: &Writing) -> Written {
    let mut buffer = writing.buffer.to_vec();
    let Reported {
        number,
        bytes,
        held,
    } = reported(writing, &mut buffer);
    Written {
        number,
        bytes,
        held,
        buffer,
    }
}

fn reported(writing: &Writing, buffer: &mut [u8]) -> Reported {
    let bits = writing.bits;
    let (out, nout) = (buffer.as_mut_ptr(), buffer.len());
    // SAFETY: each pointer goes with the length of its slice.
    unsafe {
        match writing.what {
            What::File { rate, samples } => {
                kipawnore_write_sound(bits, rate, samples.as_ptr(), samples.len(), out, nout)
            }
            What::Header { rate, count } => kipawnore_sound_header(bits, rate, count, out, nout),
            What::Part { samples } => {
                kipawnore_sound_part(bits, samples.as_ptr(), samples.len(), out, nout)
            }
            What::Pad { count } => kipawnore_sound_pad(bits, count, out, nout),
        }
    }
}

/// Reads into a copy of the buffer.
pub fn read(bytes: &[u8], buffer: &[i32]) -> Heard {
    let mut buffer = buffer.to_vec();
    let (out, nout) = (buffer.as_mut_ptr(), buffer.len());
    // SAFETY: each pointer goes with the length of its slice.
    let told = unsafe { kipawnore_read_sound(bytes.as_ptr(), bytes.len(), out, nout) };
    Heard {
        number: told.number,
        bits: told.bits,
        rate: told.rate,
        count: told.count,
        buffer,
    }
}
