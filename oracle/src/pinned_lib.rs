//! The crate root of the pinned Rust: the two modules that are ported, and nothing of the rest.
#![allow(dead_code)]
pub mod constants;
pub mod vocoder;
