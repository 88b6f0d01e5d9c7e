//! Which number a call of a voice answers, read from document 01's table, but for 9, which only preparing tells.

use crate::frames::Frame;
use crate::spectrum::DONE;
use crate::voice_structs::{Configuration, Voice};

pub const IDLE: u64 = 2;
pub const LEFT: u64 = 3;
pub const SPECTRUM_LENGTH: u64 = 4;
pub const TAP_COUNT: u64 = 5;
pub const NOT_FINITE: u64 = 6;
pub const BEYOND: u64 = 7;
pub const METER: u64 = 8;
pub const NOTHING_LEFT: u64 = 10;
pub const NO_ROOM: u64 = 12;
pub const RECORDS: u64 = 13;
pub const SHORT: u64 = 14;

/// The most that a meter and the samples left may come to.
pub const MOST_METER: u64 = (1 << 63) - 1;

/// The largest size of a spectrum entry from stage 1 on.
pub const MOST_ENTRY: f64 = (1 << 20) as f64;

/// Whether a configuration keeps the limits.
pub fn keeps_limits(configuration: &Configuration) -> bool {
    let &Configuration {
        nmcp,
        nlpf,
        stage,
        log_gain: _,
        rate,
        alpha,
        beta,
        volume,
        fperiod,
        nodata,
        low,
        high,
    } = configuration;
    let ends = -20.0..=20.0;
    (2..=64).contains(&nmcp)
        && nlpf <= 64
        && stage <= 8
        && (1..=192_000).contains(&rate)
        && (1..=4_800).contains(&fperiod)
        && -1.0 < alpha
        && alpha < 1.0
        && (0.0..=1.0).contains(&beta)
        && volume.is_finite()
        && ends.contains(&low)
        && ends.contains(&high)
        && low <= high
        && nodata.is_finite()
}

/// Whether a voice breaks a rule of restore.
pub fn is_idle(voice: &Voice) -> bool {
    let limits = keeps_limits(&voice.configuration);
    let (left, fperiod) = (voice.left as u64, voice.configuration.fperiod as u64);
    let counted = limits
        && left <= fperiod
        && match voice.meter.checked_add(left) {
            Some(sum) => sum <= MOST_METER && sum.is_multiple_of(fperiod),
            None => false,
        };
    let begun = voice.meter > 0 || voice.left > 0;
    !counted || voice.random.used > 64 || voice.first && begun
}

/// The first of the numbers of a give that applies, or `DONE`, where preparing has the last word.
pub fn of_give(voice: &Voice, frame: &Frame) -> u64 {
    let Configuration {
        nmcp,
        nlpf,
        stage,
        fperiod,
        ..
    } = voice.configuration;
    let Frame { lf0, spectrum, lpf } = frame;
    let mut floats = spectrum.iter().chain(lpf).chain([lf0]);
    if is_idle(voice) {
        IDLE
    } else if voice.left > 0 {
        LEFT
    } else if spectrum.len() != nmcp {
        SPECTRUM_LENGTH
    } else if lpf.len() != nlpf {
        TAP_COUNT
    } else if floats.any(|x| !x.is_finite()) {
        NOT_FINITE
    } else if stage > 0 && spectrum.iter().any(|x| x.abs() > MOST_ENTRY) {
        BEYOND
    } else if voice.meter > MOST_METER - fperiod as u64 {
        METER
    } else {
        DONE
    }
}
