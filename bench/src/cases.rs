//! The cases: each function over inputs as they are used.

use crate::excitations;
use crate::generator::Generator;
use crate::inputs::{self, COUNT};
use crate::measure::Pass;
use crate::variants::{self, Variant, Ways};
use std::f64::consts::PI;
use std::hint::black_box;

/// A function over a set of inputs, by three ways.
pub struct Case {
    pub function: &'static str,
    pub set: String,
    pub left: Vec<u64>,
    pub right: Vec<u64>,
    /// How many answers a pass makes.
    pub count: usize,
    pub variants: Ways,
    /// How many floats an answer of ours may be away from Rust's.
    pub steps: u64,
}

impl Case {
    /// The passes by each way. The inputs are hidden each time, so that no pass is left out.
    pub fn passes(&self) -> Vec<Pass<'_>> {
        let pass = |way: Variant| -> Pass {
            Box::new(move || (way.pass)(black_box(&self.left), black_box(&self.right)))
        };
        self.variants.into_iter().map(pass).collect()
    }

    /// Whether the sums of the results' bits are as near to one another as the results may be.
    pub fn ways_agree(&self) -> bool {
        let sums: Vec<u64> = self.passes().iter().map(|pass| pass()).collect();
        sums.iter().all(|sum| {
            let away = sum.wrapping_sub(sums[0]) as i64;
            away.unsigned_abs() <= self.count as u64 * self.steps
        })
    }
}

/// The steps that the bands of document 01 allow: an error of 2^-48 is 2^5 steps, one of 2^-44 is 2^9,
/// one of 2^-40 is 2^13. That of the cosine is absolute, and so more steps beside its zeros.
pub const EXACT: u64 = 0;
const EXP_LN: u64 = 1 << 5;
const POWER: u64 = 1 << 9;
const ROOT: u64 = 1 << 13;
const COSINE: u64 = 1 << 20;

pub fn all(random: &mut Generator) -> Vec<Case> {
    let mut cases = square_roots(random);
    cases.extend(elementary(random));
    cases.extend(powers(random));
    cases.push(Case {
        function: "wrapping_mul",
        set: "any words".to_string(),
        left: inputs::any_words(random),
        right: inputs::any_words(random),
        count: COUNT,
        variants: variants::WRAPPING_MUL,
        steps: EXACT,
    });
    cases.extend(excitations::all(random));
    cases
}

/// A case of a function of one float.
fn of_floats(
    function: &'static str,
    set: &str,
    left: Vec<u64>,
    variants: Ways,
    steps: u64,
) -> Case {
    Case {
        function,
        set: set.to_string(),
        left,
        right: Vec::new(),
        count: COUNT,
        variants,
        steps,
    }
}

fn square_roots(random: &mut Generator) -> Vec<Case> {
    let sets = [
        ("[1e-3, 1e3]", inputs::evenly(1e-3, 1e3, random)),
        ("positive, every exponent", inputs::every_exponent(random)),
        ("subnormals", inputs::subnormals(random)),
    ];
    sets.into_iter()
        .map(|(set, left)| of_floats("sqrt", set, left, variants::SQRT, EXACT))
        .collect()
}

/// exp of gains, ln of the noise's sums of squares, cos of frequencies.
fn elementary(random: &mut Generator) -> Vec<Case> {
    let gains = inputs::evenly(-8.0, 8.0, random);
    let squares = inputs::evenly(f64::EPSILON, 1.0, random);
    let angles = inputs::evenly(0.0, 4.0 * PI, random);
    let (exp, exp_chain) = (variants::EXP, variants::EXP_CHAIN);
    let (ln, ln_chain) = (variants::LN, variants::LN_CHAIN);
    vec![
        of_floats("exp", "[-8, 8]", gains.clone(), exp, EXP_LN),
        of_floats("exp", "[-8, 8], as a chain", gains, exp_chain, EXP_LN),
        of_floats("ln", "(0, 1)", squares.clone(), ln, EXP_LN),
        of_floats("ln", "(0, 1), as a chain", squares, ln_chain, EXP_LN),
        of_floats("cos", "[0, 4 pi]", angles, variants::COS, COSINE),
    ]
}

fn powers(random: &mut Generator) -> Vec<Case> {
    let kinds = [
        ("inverse_power", variants::INVERSE_POWER, POWER),
        ("inverse_root", variants::INVERSE_ROOT, ROOT),
    ];
    let bases = inputs::evenly(0.1, 10.0, random);
    kinds
        .into_iter()
        .flat_map(|kind| [(kind, 2), (kind, 8)])
        .map(|((function, variants, steps), stage)| Case {
            function,
            set: format!("[0.1, 10], s = {stage}"),
            left: bases.clone(),
            right: vec![stage],
            count: COUNT,
            variants,
            steps,
        })
        .collect()
}
