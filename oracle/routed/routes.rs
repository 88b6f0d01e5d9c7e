//! Where the calls of exp, ln, cos and powf end in the routed copy: at an answerer that the driver chooses.

use std::cell::{Cell, RefCell};
use std::rc::Rc;

/// The size up to which cos has a value, and the largest base of a power; the least is one over that.
const MOST_ANGLE: f64 = (1 << 20) as f64;
const MOST_BASE: f64 = (1_u128 << 120) as f64;

/// The function that is asked. The powers carry s: their exponents are -s and -1/s.
#[derive(Clone, Copy, Debug, PartialEq, Eq, Hash)]
pub enum Function {
    Exp,
    Ln,
    Cos,
    InversePower(u64),
    InverseRoot(u64),
}

impl Function {
    /// Whether a float is inside, by the bounds of document 01 and not by anyone's answer.
    pub fn has(self, x: f64) -> bool {
        match self {
            Function::Exp => true,
            Function::Ln => x.is_normal() && x > 0.0,
            Function::Cos => x.abs() <= MOST_ANGLE,
            Function::InversePower(_) | Function::InverseRoot(_) => {
                (1.0 / MOST_BASE..=MOST_BASE).contains(&x)
            }
        }
    }
}

/// Gives a function's value at a float; where that is outside, any answer will do.
pub type Answerer = Rc<dyn Fn(Function, f64) -> f64>;

thread_local! {
    static ANSWERER: RefCell<Option<Answerer>> = const { RefCell::new(None) };
    static OUTSIDE: Cell<u64> = const { Cell::new(0) };
}

/// Has all calls answered by this one from now on.
pub fn answer_by(answerer: &Answerer) {
    ANSWERER.set(Some(Rc::clone(answerer)));
}

/// How many arguments were outside ln, cos and the powers since the last time this was asked.
pub fn take_outside() -> u64 {
    OUTSIDE.take()
}

// These are public: the driver takes files of the copy into modules of its own.

pub fn exp(x: f64) -> f64 {
    ask(Function::Exp, x)
}

pub fn ln(x: f64) -> f64 {
    ask(Function::Ln, x)
}

pub fn cos(x: f64) -> f64 {
    ask(Function::Cos, x)
}

/// The power with an exponent that is -s.
pub fn inverse_power(a: f64, exponent: f64) -> f64 {
    let s = (-exponent).round();
    assert!(-s == exponent, "the exponent {exponent} is not a whole -s");
    ask(Function::InversePower(s as u64), a)
}

/// The power with an exponent that is the float nearest -1/s.
pub fn inverse_root(a: f64, exponent: f64) -> f64 {
    let s = (-1.0 / exponent).round();
    assert!(-1.0 / s == exponent, "the exponent {exponent} is no -1/s");
    ask(Function::InverseRoot(s as u64), a)
}

/// Has the answerer answer, and counts an argument outside.
fn ask(function: Function, x: f64) -> f64 {
    if !function.has(x) {
        OUTSIDE.set(OUTSIDE.get() + 1);
    }
    ANSWERER.with_borrow(|answerer| {
        let answerer = answerer.as_ref().expect("the driver chose no answerer");
        answerer(function, x)
    })
}
