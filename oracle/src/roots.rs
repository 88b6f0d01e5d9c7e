//! The fixed list for a proved program: the input patterns, and the bits of Rust's roots of them.

use crate::comparison::{NAN, one_nan};
use crate::float_patterns::*;
use crate::generator::Generator;
use crate::hex_words::{print_words, read_words};
use std::collections::HashSet;

/// The list never changes by itself: its few random patterns come from this seed.
const LIST_SEED: u64 = 1;

/// Prints the patterns, none twice.
pub fn print_patterns() {
    let mut random = Generator::new(LIST_SEED);
    let mut patterns = specials(&mut random);
    patterns.extend(subnormals(&mut random));
    patterns.extend(ends_and_middles());
    patterns.extend(around_squares(&mut random));
    patterns.extend(hardest_to_round());
    patterns.extend(random_ones(&mut random));
    let mut seen = HashSet::new();
    patterns.retain(|bits| seen.insert(*bits));
    print_words(&patterns);
}

/// Zeros, infinities, NaNs of either sign with payloads, and other negatives.
fn specials(random: &mut Generator) -> Vec<u64> {
    let mut patterns = vec![0, SIGN, INFINITY, INFINITY | SIGN];
    let mut payloads = vec![
        1,
        2,
        FRACTION,
        NAN & FRACTION,
        (NAN & FRACTION) | 1,
        FRACTION >> 1,
    ];
    payloads.extend((0..4).map(|_| 1 + random.below(FRACTION)));
    for payload in payloads {
        patterns.extend([INFINITY | payload, INFINITY | payload | SIGN]);
    }
    let negatives = [
        1,
        FRACTION,
        FRACTION + 1,
        positive(BIAS, 0),
        positive(BIAS + 2, 0),
        INFINITY - 1,
    ];
    patterns.extend(negatives.map(|bits| bits | SIGN));
    patterns.extend((0..6).map(|_| positive(random.below(2047), random.word()) | SIGN));
    patterns
}

/// The smallest and largest, every power of two, random ones; then the smallest normal numbers.
fn subnormals(random: &mut Generator) -> Vec<u64> {
    let mut patterns = vec![1, 2, 3, FRACTION - 1, FRACTION];
    patterns.extend((0..52).map(|bit| 1 << bit));
    patterns.extend((0..24).map(|_| subnormal(random)));
    patterns.extend([FRACTION + 1, FRACTION + 2, FRACTION + 3]);
    patterns
}

/// Both ends and the middle of binades: the lowest, the highest, those about 1 (so 1 + 2^-52 and the
/// numbers just under 2 and 4), and some between, odd and even.
fn ends_and_middles() -> Vec<u64> {
    let fields = [
        1, 2, 3, 511, 512, 1021, 1022, 1023, 1024, 1025, 1026, 1534, 1535, 2045, 2046,
    ];
    let pairs = fields
        .iter()
        .flat_map(|&field| EDGE_FRACTIONS.map(|fraction| positive(field, fraction)));
    pairs.collect()
}

/// Exact squares, small, of the longest roots, and random, with the patterns on either side.
fn around_squares(random: &mut Generator) -> Vec<u64> {
    let mut squares: Vec<u64> = [1, 2, 3, 4, 5, 10, 255, (1 << 25) + 1, (1 << 26) - 1]
        .into_iter()
        .map(|k| perfect_square(k, 0))
        .collect();
    for _ in 0..20 {
        let k = (1 << 25) | random.below(1 << 25);
        squares.push(perfect_square(k, random.below(900) as i64 - 450));
    }
    squares
        .into_iter()
        .flat_map(|bits| [bits - 1, bits, bits + 1])
        .collect()
}

/// Roots that lie nearest a half-way point, above it and below.
fn hardest_to_round() -> Vec<u64> {
    let residues = (0..16).flat_map(|step| [8 * step + 1, -8 * step - 7]);
    residues
        .flat_map(|residue| hardest(residue, 37 * residue.signum() - 26))
        .collect()
}

fn random_ones(random: &mut Generator) -> Vec<u64> {
    let mut patterns: Vec<u64> = (0..60)
        .map(|_| positive(random.below(2047), random.word()))
        .collect();
    patterns.extend((0..40).map(|_| from_one_to_four(random)));
    patterns
}

/// Reads patterns and prints the bits of their roots.
pub fn print_roots() -> Result<(), String> {
    let roots = read_words()?
        .into_iter()
        .map(|bits| f64::from_bits(bits).sqrt());
    let words: Vec<u64> = roots.map(|root| one_nan(root.to_bits())).collect();
    print_words(&words);
    Ok(())
}
