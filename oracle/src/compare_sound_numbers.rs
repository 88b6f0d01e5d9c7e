//! The numbers of samples with either width, by parts of a file: their bytes, and how many of them are held back.

use crate::float_patterns::{EDGE_FRACTIONS, INFINITY, SIGN, positive, subnormal};
use crate::generator::Generator;
use crate::ours::Ours;
use crate::sound::{What, Writing};
use crate::sound_sides::Sides;
use crate::sound_values::{any_nan, huge, plain};
use crate::sound_writing::number;
use std::cell::RefCell;

/// The samples of a part, and the bytes of its buffer: more than the samples need.
const BLOCK: usize = 256;
const ROOM: usize = 3 * BLOCK + 5;

/// So many floats next to each other on both sides of a limit, a part each.
const NEAR: u64 = 200;

/// Samples with bits, number and whether they are held back, as document 02 has it: our reading must say so.
const KNOWN: [(f64, u64, i32, bool); 22] = [
    (0.5, 16, 0, false),
    (-0.5, 16, 0, false),
    (1.5, 16, 2, false),
    (2.5, 16, 2, false),
    (-3.5, 16, -4, false),
    (32_766.5, 16, 32_766, false),
    (32_767.4, 16, 32_767, false),
    (32_767.5, 16, 32_767, true),
    (-32_768.5, 16, -32_768, false),
    (-32_768.6, 16, -32_768, true),
    (f64::INFINITY, 16, 32_767, true),
    (f64::NEG_INFINITY, 16, -32_768, true),
    (f64::NAN, 16, 0, false),
    (1.0, 24, 256, false),
    (0.5 / 256.0, 24, 0, false),
    (1.5 / 256.0, 24, 2, false),
    (-2.5 / 256.0, 24, -2, false),
    (32_767.998, 24, 8_388_607, false),
    (32_767.998_046_875, 24, 8_388_607, true),
    (-32_768.001_953_125, 24, -8_388_608, false),
    (f64::MAX, 24, 8_388_607, true),
    (f64::NAN, 24, 0, false),
];

/// Collects samples into parts of one width.
struct Parts<'a> {
    sides: Sides<'a>,
    bits: u64,
    pending: Vec<f64>,
}

pub fn numbers(ours: &RefCell<Ours>, random: &mut Generator) -> bool {
    for (sample, bits, right, held) in KNOWN {
        assert_eq!(number(sample, bits), (right, held), "{sample:e}, {bits}");
    }
    let mut good = true;
    for bits in [16, 24] {
        let name = format!("numbers of {bits} bits");
        let mut parts = Parts {
            sides: Sides::new(&name, "samples", ours),
            bits,
            pending: Vec::new(),
        };
        parts.known();
        parts.near_limits();
        parts.every_exponent();
        parts.ties(random);
        parts.random(random);
        good &= parts.finish();
    }
    good
}

impl Parts<'_> {
    fn pattern(&mut self, bits: u64) {
        self.sample(f64::from_bits(bits));
    }

    fn sample(&mut self, sample: f64) {
        self.pending.push(sample);
        if self.pending.len() == BLOCK {
            self.part();
        }
    }

    /// Makes a part of the samples so far.
    fn part(&mut self) {
        let samples = std::mem::take(&mut self.pending);
        self.sides.tally.inputs(samples.len());
        self.sides.write(&Writing {
            what: What::Part { samples: &samples },
            bits: self.bits,
            buffer: &[0xA5; ROOM],
        });
    }

    /// The sample whose number, before it is rounded, is this.
    fn scaled(&self, number: f64) -> f64 {
        number / (1 << (self.bits - 16)) as f64
    }

    /// The samples of the list, a part each.
    fn known(&mut self) {
        for (sample, ..) in KNOWN {
            self.sample(sample);
            self.part();
        }
    }

    /// The floats around the ends of the range and around the places where samples begin to be held back, a part each.
    fn near_limits(&mut self) {
        let end = (1u64 << (self.bits - 1)) as f64;
        for place in [end - 1.0, end - 0.5, end, end + 0.5, end + 1.0, end + 1.5] {
            let middle = self.scaled(place).to_bits();
            for bits in middle - NEAR..=middle + NEAR {
                for sign in [0, SIGN] {
                    self.pattern(bits | sign);
                    self.part();
                }
            }
        }
    }

    /// Every exponent with edge fractions, both signs: zeros, subnormals, infinities and NaNs too.
    fn every_exponent(&mut self) {
        for field in 0..2048 {
            for fraction in EDGE_FRACTIONS {
                self.pattern(positive(field, fraction));
                self.pattern(positive(field, fraction) | SIGN);
            }
        }
    }

    /// Every n + 1/2 of the range, from just below its low end to just above its high one, and the floats next to some of
    /// them: with 16 bits to all.
    fn ties(&mut self, random: &mut Generator) {
        let end = 1i64 << (self.bits - 1);
        let one_in = 1 << (self.bits - 16);
        for below in -end - 1..end {
            let tie = self.scaled(below as f64 + 0.5);
            self.sample(tie);
            if random.below(one_in) == 0 {
                self.sample(tie.next_up());
                self.sample(tie.next_down());
                self.sample(self.scaled(below as f64));
            }
        }
    }

    fn random(&mut self, random: &mut Generator) {
        for _ in 0..1_000_000 {
            self.pattern(random.word());
            self.sample(plain(random));
        }
        for _ in 0..100_000 {
            self.pattern(any_nan(random));
            self.pattern(huge(random));
            self.pattern(subnormal(random) | random.word() & SIGN);
        }
        for bits in INFINITY - 1_000..=INFINITY {
            self.pattern(bits);
            self.pattern(bits | SIGN);
        }
    }

    fn finish(mut self) -> bool {
        self.part();
        self.sides.tally.finish()
    }
}
