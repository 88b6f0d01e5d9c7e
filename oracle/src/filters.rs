//! The fixed list of the filters for a proved program: the stretches that are to be filtered, and what the Rust
//! makes of them, in words of 16 hex digits.

use crate::answerers::our_own;
use crate::filter::{Arrays, Filter, Outcome, Request};
use crate::filters_cases;
use crate::hex_words::{print_list, print_words, read_words};
use crate::ours::Ours;
use crate::routes;
use crate::rusts_filter::Rusts;
use crate::stretches::{bits, floats};
use std::cell::RefCell;
use std::rc::Rc;

/// Prints the stretches.
pub fn print_requests() {
    let words: Vec<u64> = filters_cases::all().iter().flat_map(asked).collect();
    print_list(&words);
}

/// Reads such stretches and prints what the Rust, with our exp, makes of each.
pub fn print_outcomes(ours: Rc<RefCell<Ours>>) -> Result<(), String> {
    routes::answer_by(&our_own(ours));
    let mut words = read_words()?.into_iter().peekable();
    while words.peek().is_some() {
        let request = read(&mut words).ok_or("the last stretch is cut short")?;
        print_words(&made(&Rusts::at(&request).stretch(&request)));
    }
    Ok(())
}

/// Stage, nmcp, count, alpha, volume; the coefficients, the increments, the taps, the samples.
fn asked(request: &Request) -> Vec<u64> {
    let arrays = &request.arrays;
    let lengths = [arrays.coefficients.len(), arrays.samples.len()];
    let mut words = vec![request.filter.stage()];
    words.extend(lengths.map(|length| length as u64));
    words.extend(bits(&[request.alpha, request.volume]));
    words.extend(bits(&arrays.coefficients).chain(bits(&arrays.increments)));
    words.extend(arrays.taps.iter().flat_map(|array| bits(array)));
    words.extend(bits(&arrays.samples));
    words
}

fn read(words: &mut impl Iterator<Item = u64>) -> Option<Request> {
    let filter = Filter::of_stage(words.next()?);
    let (nmcp, count) = (words.next()? as usize, words.next()? as usize);
    let [alpha, volume] = floats(words, 2)?.try_into().ok()?;
    let (coefficients, increments) = (floats(words, nmcp)?, floats(words, nmcp)?);
    let lengths = filter.lengths(nmcp).into_iter();
    let taps: Option<_> = lengths.map(|length| floats(words, length)).collect();
    Some(Request {
        filter,
        alpha,
        volume,
        arrays: Arrays {
            coefficients,
            increments,
            taps: taps?,
            samples: floats(words, count)?,
        },
    })
}

/// The samples, the coefficients, the taps.
fn made(outcome: &Outcome) -> Vec<u64> {
    let arrays = &outcome.arrays;
    let samples = bits(&arrays.samples).chain(bits(&arrays.coefficients));
    let taps = arrays.taps.iter().flat_map(|array| bits(array));
    samples.chain(taps).collect()
}
