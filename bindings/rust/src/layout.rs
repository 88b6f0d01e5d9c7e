//! That the structs are laid out as the archives have them: sizes and offsets when this is compiled. That the fields mean
//! the same there, src/tests/layout.rs and sound.rs test.

use crate::structs::{
    Answered, Configuration, Drawn, Heard, Pulse, Random, Saved, Voice, Written, Zero,
};
use std::mem::offset_of;

const _: () = {
    assert!(size_of::<usize>() == 8 && size_of::<bool>() == 1);
    assert!(size_of::<Configuration>() == 96);
    assert!(offset_of!(Configuration, log) == 24 && offset_of!(Configuration, rate) == 32);
    assert!(offset_of!(Configuration, fperiod) == 64 && offset_of!(Configuration, high) == 88);
    assert!(size_of::<Pulse>() == 32 && size_of::<Random>() == 528 && size_of::<Zero>() == 3216);
    assert!(offset_of!(Voice, meter) == 96 && offset_of!(Voice, left) == 104);
    assert!(offset_of!(Voice, first) == 112 && offset_of!(Voice, pulse) == 120);
    assert!(offset_of!(Voice, line) == 152 && offset_of!(Voice, lpf) == 664);
    assert!(offset_of!(Voice, random) == 1176);
    assert!(offset_of!(Voice, coefficients) == 1704 && offset_of!(Voice, increments) == 2216);
    assert!(offset_of!(Voice, targets) == 2728);
    assert!(offset_of!(Voice, zero) == 3240 && offset_of!(Voice, nonzero) == 6456);
    assert!(size_of::<Voice>() == 10_552 && align_of::<Voice>() == 8);
    assert!(offset_of!(Answered, voice) == 8 && size_of::<Answered>() == 10_560);
    assert!(offset_of!(Drawn, made) == 8 && offset_of!(Drawn, voice) == 16);
    assert!(size_of::<Drawn>() == 10_568);
    assert!(offset_of!(Saved, bytes) == 8 && size_of::<Saved>() == 16);
    assert!(offset_of!(Written, bytes) == 8 && offset_of!(Written, held) == 16);
    assert!(offset_of!(Heard, bits) == 8 && offset_of!(Heard, rate) == 16);
    assert!(offset_of!(Heard, count) == 24);
    assert!(size_of::<Written>() == 24 && size_of::<Heard>() == 32);
};
