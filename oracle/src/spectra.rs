//! The fixed list of spectra for a proved program: the frames that are to be prepared, and what the Rust
//! makes of them, in words of 16 hex digits.

use crate::answerers::our_own;
use crate::hex_words::{print_list, print_words, read_words};
use crate::ours::Ours;
use crate::routes;
use crate::rusts_spectrum;
use crate::spectra_cases;
use crate::spectrum::{Outcome, Request};
use crate::stretches::{bits, floats};
use std::cell::RefCell;
use std::rc::Rc;

/// Prints the frames.
pub fn print_requests() {
    let words: Vec<u64> = spectra_cases::all().iter().flat_map(asked).collect();
    print_list(&words);
}

/// Reads such frames and prints what the Rust, with our functions, makes of each.
pub fn print_outcomes(ours: Rc<RefCell<Ours>>) -> Result<(), String> {
    routes::answer_by(&our_own(ours));
    let mut words = read_words()?.into_iter().peekable();
    while words.peek().is_some() {
        let request = read(&mut words).ok_or("the last frame is cut short")?;
        print_words(&made(&rusts_spectrum::outcome(&request)));
    }
    Ok(())
}

/// Stage, log gain, nmcp, first, alpha, beta; the spectrum; the start as it is before.
fn asked(request: &Request) -> Vec<u64> {
    let [spectrum, start, _] = &request.arrays;
    let mut words = vec![request.stage, request.log_gain.into()];
    words.extend([spectrum.len() as u64, request.first.into()]);
    words.extend(bits(&[request.alpha, request.beta]));
    words.extend(bits(spectrum).chain(bits(start)));
    words
}

fn read(words: &mut impl Iterator<Item = u64>) -> Option<Request> {
    let mut word = || words.next();
    let (stage, log_gain) = (word()?, word()? != 0);
    let (nmcp, first) = (word()? as usize, word()? != 0);
    let (alpha, beta) = (f64::from_bits(word()?), f64::from_bits(word()?));
    Some(Request {
        step: spectra_cases::step(stage),
        alpha,
        beta,
        stage,
        log_gain,
        first,
        arrays: [floats(words, nmcp)?, floats(words, nmcp)?, vec![0.0; nmcp]],
    })
}

/// The number; the start and the targets as they are after.
fn made(outcome: &Outcome) -> Vec<u64> {
    let [_, start, targets] = &outcome.arrays;
    let mut words = vec![outcome.number];
    words.extend(bits(start).chain(bits(targets)));
    words
}
