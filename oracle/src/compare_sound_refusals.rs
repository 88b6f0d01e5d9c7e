//! Refusals of writing: bits, rates, lengths and rooms at their ends and past them, in every way together. Nothing is written then.

use crate::generator::Generator;
use crate::ours::Ours;
use crate::sound::What;
use crate::sound_sides::Sides;
use std::cell::RefCell;

/// The last is 16 in its low 32 bits.
const BITS: [u64; 11] = [16, 24, 0, 8, 15, 17, 20, 25, 32, u64::MAX, (1 << 32) + 16];
const RATES: [u64; 7] = [1, 192_000, 0, 192_001, 1 << 32, (1 << 32) + 8_000, u64::MAX];

/// The most samples that fit with 16 bits and with 24.
const MOST: [usize; 2] = [2_147_483_629, 1_431_655_752];

/// Numbers of samples: small ones, the most that fit and one more, and others whose bytes would fit again if only their low 32 or 64
/// bits counted.
const COUNTS: [usize; 14] = [
    0,
    1,
    2,
    MOST[0],
    MOST[0] + 1,
    MOST[1],
    MOST[1] + 1,
    1 << 31,
    1 << 32,
    1 << 63,
    (1 << 63) + 1,
    usize::MAX / 3 + 1,
    usize::MAX / 3 * 2 + 1,
    usize::MAX,
];

/// What must come up: every number alone, and all that can apply together.
const MET: [(&str, &[&str]); 4] = [
    (
        "header",
        &["0", "1", "22", "23", "1+22", "1+23", "22+23", "1+22+23"],
    ),
    ("file", &["0", "1", "23", "1+23"]),
    ("part", &["0", "1", "23"]),
    ("pad", &["0", "1", "23"]),
];

/// The same of whole files that are too long. There is never room for one.
const MET_TOO_LONG: [(&str, &[&str]); 1] = [("file", &["22+23", "1+22+23"])];

pub fn refusals(ours: &RefCell<Ours>, random: &mut Generator) -> bool {
    let mut sides = Sides::new("refusals of writing", "calls", ours);
    for bits in BITS {
        headers(&mut sides, bits, random);
        files(&mut sides, bits, random);
        parts(&mut sides, bits, random);
        for count in COUNTS {
            calls(&mut sides, What::Pad { count }, bits, &[0, 1, 2], random);
        }
    }
    let met = sides.tally.has_met(&MET, 1) & too_long(&mut sides, random);
    sides.tally.finish() && met
}

/// A call with each of these rooms.
fn calls(sides: &mut Sides, what: What, bits: u64, rooms: &[usize], random: &mut Generator) {
    for room in rooms {
        sides.tally.inputs(1);
        sides.write_into(*room, what, bits, random);
    }
}

fn headers(sides: &mut Sides, bits: u64, random: &mut Generator) {
    for rate in RATES {
        for count in COUNTS {
            let what = What::Header { rate, count };
            calls(sides, what, bits, &[0, 43, 44, 60], random);
        }
    }
}

/// Rooms: none, too little for the header, just enough for it, one byte short, just enough, more. Bits that are no width are taken
/// for 16 there.
fn files(sides: &mut Sides, bits: u64, random: &mut Generator) {
    let width = if bits == 24 { 3 } else { 2 };
    for samples in [[].as_slice(), &[1.0], &[1.0, -40_000.0], &[0.5; 3]] {
        let size = 44 + (width * samples.len()).next_multiple_of(2);
        for rate in RATES {
            let what = What::File { rate, samples };
            let rooms = [0, 43, 44, size - 1, size, size + 7];
            calls(sides, what, bits, &rooms, random);
        }
    }
}

fn parts(sides: &mut Sides, bits: u64, random: &mut Generator) {
    let width = if bits == 24 { 3 } else { 2 };
    for samples in [[].as_slice(), &[1.0], &[1.0, -40_000.0], &[0.5; 5]] {
        let size = width * samples.len();
        let rooms = [0, size.saturating_sub(1), size, size + 7];
        calls(sides, What::Part { samples }, bits, &rooms, random);
    }
}

/// Whole files of as many samples as fit and of one more, which are zeros: none of them is read, since there is no room for the file.
fn too_long(sides: &mut Sides, random: &mut Generator) -> bool {
    let Some(zeros) = sides.zeros(MOST[0] + 1) else {
        println!("the longest whole files are left out: so many samples are not to be had here");
        return true;
    };
    for (bits, most) in [16, 24].into_iter().zip(MOST) {
        for samples in [&zeros[..most], &zeros[..=most]] {
            for rate in RATES {
                let what = What::File { rate, samples };
                calls(sides, what, bits, &[0, 44, 1_000], random);
            }
        }
    }
    sides.tally.has_met(&MET_TOO_LONG, 1)
}
