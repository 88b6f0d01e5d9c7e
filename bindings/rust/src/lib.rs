//! The proved voice of Kipawnore. Frames (log F0, spectrum, filter taps) go in, samples come out, a meter counts them, and a voice can be
//! saved and restored between any two calls without a change to either.
//!
//! The scale of a sample: 1.0 is one step of 16 bits, so full scale is 32,768 and not 1. The module [`sound`] makes sound files of samples.
//!
//! The six calls are those of libexport_voice.a, proved for every input; what they answer is document 01's. So no function here panics,
//! allocates or needs a check of its caller: whatever it is given, it does what it says or answers a [`Refusal`] and changes nothing.
//! What it takes is stack, some 190 KiB of it, and some 310 where it is built without optimisation: a voice is 10,552 bytes and goes by value.
//!
//! ```
//! use kipawnore::{Configuration, MOST_BYTES, Refusal, Voice};
//!
//! let mut voice = Voice::open(Configuration {
//!     nmcp: 2,
//!     nlpf: 0,
//!     stage: 0,
//!     log: false,
//!     rate: 16_000,
//!     alpha: 0.42,
//!     beta: 0.0,
//!     volume: 1.0,
//!     fperiod: 80,
//!     nodata: -1e10,
//!     low: 3.0,
//!     high: 9.9,
//! })?;
//! let mut samples = [0.0; 80];
//! assert_eq!(voice.whole_frame(5.0, &[1.0, 0.5], &[], &mut samples, 0), Ok(80));
//!
//! let mut records = [0; MOST_BYTES];
//! let length = voice.save(&mut records)?;
//! let mut later = Voice::idle();
//! later.restore(&records[..length])?;
//! assert_eq!(later.meter(), 80);
//! # Ok::<(), Refusal>(())
//! ```

mod calls;
mod layout;
mod refusal;
pub mod sound;
mod structs;
#[cfg(test)]
mod tests;
mod voice;

pub use refusal::Refusal;
pub use structs::{Configuration, Voice};

// The tests share a file with the worker, which names the crate so.
#[cfg(test)]
extern crate self as kipawnore;

/// The room that the largest voice needs to be saved.
pub const MOST_BYTES: usize = 14_672;

/// The uses that the README of the repository has: they are compiled and run with the tests.
#[cfg(doctest)]
#[doc = include_str!("../../../README.md")]
struct Readme;
