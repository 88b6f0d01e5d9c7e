//! The crate root of the routed copy of the pinned Rust: as src/pinned_lib.rs, and where its calls go.
#![allow(dead_code)]
pub mod constants;
pub mod routes;
pub mod vocoder;
