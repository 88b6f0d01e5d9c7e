//! Whole sound files of all lengths: written at once, written in parts, read again.

use crate::generator::Generator;
use crate::ours::Ours;
use crate::sound::{Heard, What, Writing, Written};
use crate::sound_sides::Sides;
use crate::sound_values::{any_parts, any_rate, any_sample};
use crate::sound_writing::number;
use crate::spectrum::DONE;
use std::cell::RefCell;

/// Every length up to this, then so many random ones below the other.
const SHORT_ONES: usize = 40;
const LONG_ONES: usize = 250;
const MOST: u64 = 3_000;

/// At most so many bytes behind those that are written.
const BEHIND: u64 = 40;

/// What must come up, each a hundred times.
const MET: [(&str, &[&str]); 5] = [
    ("file", &["0", "23"]),
    ("header", &["0"]),
    ("part", &["0"]),
    ("pad", &["0"]),
    ("read", &["0", "23"]),
];

pub fn files(ours: &RefCell<Ours>, random: &mut Generator) -> bool {
    let mut sides = Sides::new("whole files", "files", ours);
    for bits in [16, 24] {
        for count in 0..=SHORT_ONES {
            file(&mut sides, bits, count, random);
        }
        for _ in 0..LONG_ONES {
            let count = random.below(MOST) as usize;
            file(&mut sides, bits, count, random);
        }
    }
    let met = sides.tally.has_met(&MET, 100);
    sides.tally.finish() && met
}

/// A file of so many samples: into one byte too little, whole, in parts, and read again.
fn file(sides: &mut Sides, bits: u64, count: usize, random: &mut Generator) {
    sides.tally.inputs(1);
    let samples: Vec<f64> = (0..count).map(|_| any_sample(random)).collect();
    let rate = any_rate(random);
    let what = What::File {
        rate,
        samples: &samples,
    };
    let data = count * bits as usize / 8;
    let size = 44 + data.next_multiple_of(2);
    sides.write_into(size - 1, what, bits, random);
    let room = size + random.below(BEHIND) as usize;
    let whole = without_rest(sides.write_into(room, what, bits, random));
    let joined = in_parts(sides, bits, rate, &samples, random);
    let writing = Writing {
        what,
        bits,
        buffer: &whole.buffer,
    };
    sides.tally.joined(&writing, &joined, &whole);
    read_again(sides, &writing, rate);
}

/// Only the bytes that were written.
fn without_rest(mut written: Written) -> Written {
    written.buffer.truncate(written.bytes);
    written
}

/// The same file by its header, its samples cut anywhere, and its pad.
fn in_parts(
    sides: &mut Sides,
    bits: u64,
    rate: u64,
    samples: &[f64],
    random: &mut Generator,
) -> Written {
    let count = samples.len();
    let mut pieces = vec![What::Header { rate, count }];
    let mut rest = samples;
    for length in any_parts(count, random) {
        let (samples, behind) = rest.split_at(length);
        pieces.push(What::Part { samples });
        rest = behind;
    }
    pieces.push(What::Pad { count });
    let mut joined = Written {
        number: DONE,
        bytes: 0,
        held: 0,
        buffer: Vec::new(),
    };
    for what in pieces {
        let needed = match what {
            What::Header { .. } => 44,
            _ => what.samples().len() * bits as usize / 8 + 1,
        };
        let room = needed + random.below(BEHIND) as usize;
        let piece = without_rest(sides.write_into(room, what, bits, random));
        joined.number = joined.number.max(piece.number);
        joined.bytes += piece.bytes;
        joined.held += piece.held;
        joined.buffer.extend(piece.buffer);
    }
    joined
}

/// Reads the bytes that ours wrote: the numbers are those of the samples.
fn read_again(sides: &mut Sides, writing: &Writing, rate: u64) {
    let (bits, samples) = (writing.bits, writing.what.samples());
    let count = samples.len();
    let numbers = samples.iter().map(|sample| number(*sample, bits).0);
    let right = Heard {
        number: DONE,
        bits,
        rate,
        count,
        buffer: numbers.collect(),
    };
    let what = || format!("file of {count} samples, {bits} bits");
    sides.read_as(what, writing.buffer, &vec![0; count], &right);
    sides.read_twice(what, writing.buffer, count);
}
