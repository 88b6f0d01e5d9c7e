//! The sound files of document 02's L4 as they are written: the number of a sample, the bytes of a file, and what is refused. An own
//! reading, in whole numbers: no float is added, multiplied or rounded here.

use crate::float_patterns::{FRACTION, INFINITY, SIGN};
use crate::sound::{SHORT, TOO_LONG, What, Writing, Written};
use crate::spectrum::{DONE, LIMIT};
use std::cmp::Ordering;

/// The bytes before the samples, and those of them that a file's size counts.
const HEADER: u128 = 44;
const COUNTED: u128 = 36;

/// The rates that a file may have.
const RATES: std::ops::RangeInclusive<u64> = 1..=192_000;

/// Farther out than the numbers of any width.
const FAR: i64 = 1 << 52;

/// What a call that writes comes to.
pub fn written(writing: &Writing) -> Written {
    let number = refusals(writing).first().copied().unwrap_or(DONE);
    let mut written = Written {
        number,
        bytes: 0,
        held: 0,
        buffer: writing.buffer.to_vec(),
    };
    if number == DONE {
        let (bytes, held) = bytes(&writing.what, writing.bits);
        written.buffer[..bytes.len()].copy_from_slice(&bytes);
        (written.bytes, written.held) = (bytes.len(), held);
    }
    written
}

/// Every number that applies to a call, in their order: the first is answered. Without a width there are no other numbers to tell.
pub fn refusals(writing: &Writing) -> Vec<u64> {
    let Some(width) = bytes_a_sample(writing.bits) else {
        return vec![LIMIT];
    };
    let samples = width * writing.what.count() as u128;
    let mut all = Vec::new();
    if let Some(rate) = writing.what.rate() {
        if !RATES.contains(&rate) {
            all.push(LIMIT);
        }
        if COUNTED + samples + samples % 2 > u128::from(u32::MAX) {
            all.push(TOO_LONG);
        }
    }
    let needed = match writing.what {
        What::File { .. } => HEADER + samples + samples % 2,
        What::Header { .. } => HEADER,
        What::Part { .. } => samples,
        What::Pad { .. } => samples % 2,
    };
    if (writing.buffer.len() as u128) < needed {
        all.push(SHORT);
    }
    all
}

fn bytes_a_sample(bits: u64) -> Option<u128> {
    match bits {
        16 => Some(2),
        24 => Some(3),
        _ => None,
    }
}

/// The bytes of what is not refused, and the samples held back.
pub fn bytes(what: &What, bits: u64) -> (Vec<u8>, usize) {
    let width = bits as usize / 8;
    match *what {
        What::File { rate, samples } => {
            let mut file = header(bits, rate, samples.len());
            let (data, held) = data(samples, bits);
            file.extend(data);
            file.extend(pad(width * samples.len()));
            (file, held)
        }
        What::Header { rate, count } => (header(bits, rate, count), 0),
        What::Part { samples } => data(samples, bits),
        What::Pad { count } => (pad(count % 2 * width).to_vec(), 0),
    }
}

/// The 44 bytes before the samples, chunk by chunk.
fn header(bits: u64, rate: u64, count: usize) -> Vec<u8> {
    let width = bits / 8;
    let data = width * count as u64;
    let riff = 4 + (8 + 16) + (8 + data + data % 2);
    [
        b"RIFF".as_slice(),
        &four(riff),
        b"WAVE",
        b"fmt ",
        &four(16),
        &two(1), // PCM
        &two(1), // one channel
        &four(rate),
        &four(rate * width),
        &two(width),
        &two(bits),
        b"data",
        &four(data),
    ]
    .concat()
}

/// A zero behind an odd number of bytes.
fn pad(length: usize) -> &'static [u8] {
    &[0][..length % 2]
}

/// The samples' bytes, low byte first, and how many samples are held back.
fn data(samples: &[f64], bits: u64) -> (Vec<u8>, usize) {
    let width = bits as usize / 8;
    let mut data = Vec::with_capacity(width * samples.len());
    let mut all_held = 0;
    for sample in samples {
        let (number, held) = number(*sample, bits);
        data.extend_from_slice(&number.to_le_bytes()[..width]);
        all_held += usize::from(held);
    }
    (data, all_held)
}

/// The number of a sample with so many bits, and whether the sample is held back.
pub fn number(sample: f64, bits: u64) -> (i32, bool) {
    let pattern = sample.to_bits();
    if pattern & !SIGN > INFINITY {
        return (0, false);
    }
    let size = rounded_size(pattern, bits - 16);
    let rounded = if pattern & SIGN == 0 { size } else { -size };
    let limit = 1 << (bits - 1);
    let number = rounded.clamp(-limit, limit - 1);
    (number as i32, number != rounded)
}

/// The size of a float times 2^more, rounded to the nearest whole number, of two to the even one. It is a whole number divided by
/// 2^places; with no places that is 2^52 at least, and with more than 54 less than a quarter.
fn rounded_size(pattern: u64, more: u64) -> i64 {
    let (field, fraction) = ((pattern & !SIGN) >> 52, pattern & FRACTION);
    let (field, whole) = match field {
        0 => (1, fraction),
        _ => (field, fraction | 1 << 52),
    };
    match 1075 - (field + more) as i64 {
        ..=0 => FAR,
        places @ 1..=54 => divided(whole as i64, places),
        _ => 0,
    }
}

/// A whole number divided by 2^places, to the nearest, of two to the even one.
fn divided(whole: i64, places: i64) -> i64 {
    let (quotient, rest) = (whole >> places, whole & ((1 << places) - 1));
    match rest.cmp(&(1 << (places - 1))) {
        Ordering::Less => quotient,
        Ordering::Equal => quotient + quotient % 2,
        Ordering::Greater => quotient + 1,
    }
}

fn two(value: u64) -> [u8; 2] {
    (value as u16).to_le_bytes()
}

fn four(value: u64) -> [u8; 4] {
    (value as u32).to_le_bytes()
}
