//! Bit patterns of f64 that are made for a purpose: used by the comparisons and by the fixed list.

use crate::generator::Generator;

pub const FRACTION: u64 = (1 << 52) - 1;
pub const SIGN: u64 = 1 << 63;
pub const INFINITY: u64 = 0x7FF << 52;
/// The biased exponent field of 1.0.
pub const BIAS: u64 = 1023;

/// The fractions at both ends and in the middle.
pub const EDGE_FRACTIONS: [u64; 6] = [0, 1, 2, FRACTION, FRACTION - 1, 1 << 51];

/// The positive pattern with this exponent field and fraction.
pub fn positive(field: u64, fraction: u64) -> u64 {
    (field << 52) | (fraction & FRACTION)
}

/// A random number in [1, 4), all fractions alike.
pub fn from_one_to_four(random: &mut Generator) -> u64 {
    positive(BIAS + random.below(2), random.word())
}

/// A random subnormal of random length: 1 to 52 bits.
pub fn subnormal(random: &mut Generator) -> u64 {
    let length = 1 + random.below(52);
    let top = 1 << (length - 1);
    top | (random.word() & (top - 1))
}

/// The float `whole * 4^quarters`: `whole` is at least 1 and has at most 53 bits, the result is normal.
pub fn scaled(whole: u64, quarters: i64) -> u64 {
    let length = 64 - i64::from(whole.leading_zeros());
    let field = BIAS as i64 + length - 1 + 2 * quarters;
    assert!((1..=53).contains(&length) && (1..=2046).contains(&field));
    positive(field as u64, whole << (53 - length))
}

/// The square of k (at most 26 bits) times a power of four: its root is exact.
pub fn perfect_square(k: u64, quarters: i64) -> u64 {
    assert!((1..1 << 26).contains(&k));
    scaled(k * k, quarters)
}

/// The float nearest (y + 1/2)^2 for a y of 53 bits, times a power of four: near the place where
/// the rounded root steps from y to y + 1.
pub fn near_half_way(y: u64, quarters: i64) -> u64 {
    assert!((1 << 52..1 << 53).contains(&y));
    let y = u128::from(y);
    let square = y * y + y;
    let shift = if square >> 105 == 0 { 52 } else { 53 };
    let rounded = ((square >> (shift - 1)) + 1) >> 1;
    let whole = (rounded as u64).min((1 << 53) - 1);
    // 52 is a power of four more; 53 leaves one factor of two, which the exponent field takes.
    scaled(whole, quarters) + ((shift as u64 & 1) << 52)
}

/// The root of `residue` modulo 2^55, for a residue that is 1 modulo 8: bit by bit.
fn root_modulo(residue: i64) -> u64 {
    let mut root: u64 = 1;
    for bit in 3..55 {
        let rest = root.wrapping_mul(root).wrapping_sub(residue as u64);
        if rest >> bit & 1 == 1 {
            root += 1 << (bit - 1);
        }
    }
    root & ((1 << 55) - 1)
}

/// The floats x = z^2 - residue for an odd z of 54 bits, each times a power of four. Such a z lies
/// half-way between two floats, so with a small residue no roots are harder to round. The residue
/// is 1 modulo 8 (-7, 1, 9, ..).
pub fn hardest(residue: i64, quarters: i64) -> Vec<u64> {
    let root = root_modulo(residue);
    let mut found = Vec::new();
    for candidate in [root, root.wrapping_neg()] {
        for shift in [54, 55] {
            // Roots of a residue modulo 2^shift come in pairs that differ by half the modulus.
            let low = candidate & ((1 << (shift - 1)) - 1);
            let z = u128::from(if shift == 54 { low | 1 << 53 } else { low });
            let whole = (z * z).wrapping_sub(residue as i128 as u128) >> shift;
            if z >> 53 == 1 && whole >> 52 == 1 {
                found.push(scaled(whole as u64, quarters) + ((shift as u64 & 1) << 52));
            }
        }
    }
    found
}
