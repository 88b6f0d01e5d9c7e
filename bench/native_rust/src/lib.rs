//! The pinned vocoder and the plain loops of sound files behind C names, for a build with every instruction of the processor at hand. The
//! callers' sides are `bench/src/native.rs` and `bench/src/native_sounds.rs`, whose functions keep the promises asked for here.

// The pinned file has constants of other parts too.
#[allow(dead_code)]
mod constants;
mod plain_sounds;
mod vocoder;

use std::ffi::c_void;
use std::slice::{from_raw_parts, from_raw_parts_mut};
use vocoder::Vocoder;

#[unsafe(no_mangle)]
pub extern "C" fn native_open(
    nmcp: usize,
    nlpf: usize,
    stage: usize,
    rate: usize,
    alpha: f64,
    beta: f64,
    volume: f64,
    fperiod: usize,
) -> *mut c_void {
    let vocoder = Vocoder::new(nmcp, nlpf, stage, false, rate, alpha, beta, volume, fperiod);
    Box::into_raw(Box::new(vocoder)).cast()
}

/// # Safety
/// `vocoder` comes from `native_open` and is not closed; each pointer has as many floats as the number after it says.
#[unsafe(no_mangle)]
pub unsafe extern "C" fn native_synthesize(
    vocoder: *mut c_void,
    lf0: f64,
    spectrum: *const f64,
    nspectrum: usize,
    lpf: *const f64,
    nlpf: usize,
    samples: *mut f64,
    nsamples: usize,
) {
    let (vocoder, spectrum, lpf, samples) = unsafe {
        (
            &mut *vocoder.cast::<Vocoder>(),
            from_raw_parts(spectrum, nspectrum),
            from_raw_parts(lpf, nlpf),
            from_raw_parts_mut(samples, nsamples),
        )
    };
    vocoder.synthesize(lf0, spectrum, lpf, samples);
}

/// # Safety
/// `vocoder` comes from `native_open`, and this is its last use.
#[unsafe(no_mangle)]
pub unsafe extern "C" fn native_close(vocoder: *mut c_void) {
    drop(unsafe { Box::from_raw(vocoder.cast::<Vocoder>()) });
}

/// # Safety
/// Each pointer has as many samples or bytes as the number after it says.
#[unsafe(no_mangle)]
pub unsafe extern "C" fn native_write_sound(
    bits: u64,
    rate: u64,
    samples: *const f64,
    nsamples: usize,
    file: *mut u8,
    nfile: usize,
) -> usize {
    let (samples, file) = unsafe {
        (
            from_raw_parts(samples, nsamples),
            from_raw_parts_mut(file, nfile),
        )
    };
    plain_sounds::write(bits, rate, samples, file)
}

/// # Safety
/// Each pointer has as many bytes or numbers as the number after it says.
#[unsafe(no_mangle)]
pub unsafe extern "C" fn native_read_sound(
    bits: u64,
    file: *const u8,
    nfile: usize,
    numbers: *mut i32,
    nnumbers: usize,
) {
    let (file, numbers) = unsafe {
        (
            from_raw_parts(file, nfile),
            from_raw_parts_mut(numbers, nnumbers),
        )
    };
    plain_sounds::read(bits, file, numbers);
}
