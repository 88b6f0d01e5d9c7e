//! Who answers the routed copy's calls: our functions, or Rust's own.

use crate::ours::{Operation, Ours};
use routed::routes::{Answerer, Function};
use std::cell::RefCell;
use std::rc::Rc;

/// Our functions: NaN exactly where the argument is outside, or where exp is asked of a NaN.
pub fn our_own(ours: Rc<RefCell<Ours>>) -> Answerer {
    Rc::new(move |function, x| {
        let bits = x.to_bits();
        let mut ours = ours.borrow_mut();
        let answers = match function {
            Function::Exp => ours.answers(Operation::Exp, &[bits]),
            Function::Ln => ours.answers(Operation::Ln, &[bits]),
            Function::Cos => ours.answers(Operation::Cos, &[bits]),
            Function::InversePower(s) => ours.answers(Operation::InversePower, &[bits, s]),
            Function::InverseRoot(s) => ours.answers(Operation::InverseRoot, &[bits, s]),
        };
        let answer = f64::from_bits(answers[0]);
        assert!(
            answer.is_nan() == (x.is_nan() || !function.has(x)),
            "{function:?} of {x:e}: ours answers {answer:e}"
        );
        answer
    })
}

/// What the pinned Rust calls.
pub fn rusts_own() -> Answerer {
    Rc::new(|function, x| match function {
        Function::Exp => x.exp(),
        Function::Ln => x.ln(),
        Function::Cos => x.cos(),
        Function::InversePower(s) => x.powf(-(s as f64)),
        Function::InverseRoot(s) => x.powf(-1.0 / s as f64),
    })
}
