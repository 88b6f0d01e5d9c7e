//! What is timed: a pass over the inputs by each of three ways, every result folded into a sum.

use std::hint::black_box;

/// One way: its name, and a pass over the inputs. The second words are the other factors of a
/// product, the s of a power, the excitation's period, beta and stage, nmcp, stage and alpha, or a whole
/// setting; the other functions read none.
#[derive(Clone, Copy)]
pub struct Variant {
    pub name: &'static str,
    pub pass: fn(&[u64], &[u64]) -> u64,
}

/// Ours, then Rust's twice: behind a call as ours is, and as the plain loop a compiler may unroll; whole frames have in its place the
/// build with every instruction of the processor.
pub type Ways = [Variant; 3];

/// The three ways to make one kind of pass.
macro_rules! ways {
    ($pass:ident: $ours:expr, $called:expr, $inlined:expr) => {
        [
            Variant {
                name: "ours",
                pass: |left, right| $pass(left, right, $ours),
            },
            Variant {
                name: "Rust, called",
                pass: |left, right| $pass(left, right, $called),
            },
            Variant {
                name: "Rust, inlined",
                pass: |left, right| $pass(left, right, $inlined),
            },
        ]
    };
}

pub const SQRT: Ways = ways!(each: |x| kipawnore_sqrt(x), |x| rust_sqrt(x), f64::sqrt);
pub const EXP: Ways = ways!(each: |x| kipawnore_exp(x), |x| rust_exp(x), f64::exp);
pub const EXP_CHAIN: Ways = ways!(chain: |x| kipawnore_exp(x), |x| rust_exp(x), f64::exp);
pub const LN: Ways = ways!(each: |x| kipawnore_ln(x), |x| rust_ln(x), f64::ln);
pub const LN_CHAIN: Ways = ways!(chain: |x| kipawnore_ln(x), |x| rust_ln(x), f64::ln);
pub const COS: Ways = ways!(each: |x| kipawnore_cos(x), |x| rust_cos(x), f64::cos);
pub const INVERSE_POWER: Ways = ways!(powers:
    |a, s| kipawnore_inverse_power(a, s),
    |a, s| rust_powf(a, -(s as f64)),
    |a, s| a.powf(-(s as f64)));
pub const INVERSE_ROOT: Ways = ways!(powers:
    |a, s| kipawnore_inverse_root(a, s),
    |a, s| rust_powf(a, -1.0 / s as f64),
    |a, s| a.powf(-1.0 / s as f64));
pub const WRAPPING_MUL: Ways = ways!(products:
    |a, b| kipawnore_wrapping_mul(a, b),
    |a, b| rust_wrapping_mul(a, b),
    u64::wrapping_mul);

#[link(name = "exports", kind = "static")]
unsafe extern "C" {
    safe fn kipawnore_sqrt(x: f64) -> f64;
    pub safe fn kipawnore_exp(x: f64) -> f64;
    safe fn kipawnore_ln(x: f64) -> f64;
    safe fn kipawnore_cos(x: f64) -> f64;
    safe fn kipawnore_inverse_power(a: f64, s: u64) -> f64;
    safe fn kipawnore_inverse_root(a: f64, s: u64) -> f64;
    safe fn kipawnore_wrapping_mul(a: u64, b: u64) -> u64;
}

#[inline(never)]
extern "C" fn rust_sqrt(x: f64) -> f64 {
    x.sqrt()
}

#[inline(never)]
extern "C" fn rust_exp(x: f64) -> f64 {
    x.exp()
}

#[inline(never)]
extern "C" fn rust_ln(x: f64) -> f64 {
    x.ln()
}

#[inline(never)]
extern "C" fn rust_cos(x: f64) -> f64 {
    x.cos()
}

#[inline(never)]
extern "C" fn rust_powf(x: f64, exponent: f64) -> f64 {
    x.powf(exponent)
}

#[inline(never)]
extern "C" fn rust_wrapping_mul(a: u64, b: u64) -> u64 {
    a.wrapping_mul(b)
}

/// The sum of the bits: whole numbers, so that no sum waits for the float before it.
fn each(inputs: &[u64], _: &[u64], function: impl Fn(f64) -> f64) -> u64 {
    inputs.iter().fold(0, |sum: u64, bits| {
        sum.wrapping_add(function(f64::from_bits(*bits)).to_bits())
    })
}

/// The same sum, but every call waits for the one before: its input takes a zero from that answer.
fn chain(inputs: &[u64], _: &[u64], function: impl Fn(f64) -> f64) -> u64 {
    let zero = black_box(0);
    let mut answer = 0;
    inputs.iter().fold(0, |sum: u64, bits| {
        answer = function(f64::from_bits(bits | answer & zero)).to_bits();
        sum.wrapping_add(answer)
    })
}

fn powers(bases: &[u64], stage: &[u64], power: impl Fn(f64, u64) -> f64) -> u64 {
    each(bases, &[], |a| power(a, stage[0]))
}

fn products(left: &[u64], right: &[u64], product: impl Fn(u64, u64) -> u64) -> u64 {
    left.iter()
        .zip(right)
        .fold(0, |sum: u64, (a, b)| sum.wrapping_add(product(*a, *b)))
}

pub fn floats(words: &[u64]) -> Vec<f64> {
    words.iter().map(|word| f64::from_bits(*word)).collect()
}

/// A sum of bits, with those of more floats.
pub fn with_bits(sum: u64, floats: &[f64]) -> u64 {
    floats
        .iter()
        .fold(sum, |sum, float| sum.wrapping_add(float.to_bits()))
}
