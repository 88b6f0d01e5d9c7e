//! A voice's frame by the Rust's parts, its preparation, excitation and filter: for the voice before its first sample and
//! between two of them, of which `synthesize` tells nothing.

use crate::filter_values::toward;
use crate::frames::Frame;
use crate::rusts_vocoder::filter_request;
use crate::spectra_cases::step;
use crate::spectrum;
use crate::voice_structs::{Configuration, Voice};
use crate::{routes, rusts_excitation, rusts_filter, rusts_spectrum};
use pinned::constants::{MAX_LF0, MIN_LF0, NODATA};

/// The log F0 that has the Rust, whose no-data number and ends are constants, do what a voice with others does. The
/// ends must lie between the Rust's.
pub fn rusts_lf0(configuration: &Configuration, lf0: f64) -> f64 {
    let &Configuration {
        nodata, low, high, ..
    } = configuration;
    if [nodata, low, high] == [NODATA, MIN_LF0, MAX_LF0] {
        return lf0;
    }
    assert!(
        MIN_LF0 <= low && high <= MAX_LF0,
        "the Rust has no such ends"
    );
    match lf0 {
        lf0 if lf0 == nodata => NODATA,
        lf0 => lf0.clamp(low, high),
    }
}

/// The spectrum, the coefficients that its frame starts from, and those that it leads to.
pub fn prepared(voice: &Voice, frame: &Frame) -> spectrum::Outcome {
    let Configuration {
        nmcp,
        stage,
        alpha,
        beta,
        log_gain,
        ..
    } = voice.configuration;
    rusts_spectrum::outcome(&spectrum::Request {
        step: step(stage),
        alpha,
        beta,
        stage,
        log_gain,
        first: voice.first,
        arrays: [
            frame.spectrum.clone(),
            voice.coefficients[..nmcp].to_vec(),
            vec![0.0; nmcp],
        ],
    })
}

/// The voice after a done give.
pub fn given(voice: &Voice, frame: &Frame, prepared: &spectrum::Outcome) -> Voice {
    let Configuration {
        nmcp,
        nlpf,
        rate,
        fperiod,
        nodata,
        low,
        high,
        ..
    } = voice.configuration;
    let [_, start, targets] = &prepared.arrays;
    let mut given = *voice;
    given.first = false;
    given.left = fperiod;
    given.coefficients[..nmcp].copy_from_slice(start);
    given.targets[..nmcp].copy_from_slice(targets);
    given.increments[..nmcp].copy_from_slice(&toward(targets, start, fperiod));
    given.lpf[..nlpf].copy_from_slice(&frame.lpf);
    let mut excitation = rusts_excitation::Rusts::at(&voice.excitation(), 0);
    let period = rate as f64 / routes::exp(frame.lf0.clamp(low, high));
    excitation.start(frame.lf0 != nodata, period, fperiod as u64);
    given.set_excitation(&excitation.state());
    given
}

/// What stage 0 takes the exp of at each sample of a frame.
pub fn gains(from: &Voice) -> Vec<f64> {
    let mut gain = from.coefficients[0];
    let step = |_| {
        let now = gain;
        gain += from.increments[0];
        now
    };
    (0..from.left).map(step).collect()
}

/// So many samples, not past the frame's end, from any voice by the Rust's excitation and filter, and the voice after them.
pub fn drawn_from(voice: &Voice, count: usize) -> (Vec<f64>, Voice) {
    let mut excitation = rusts_excitation::Rusts::at(&voice.excitation(), 0);
    let stretch = excitation.stretch(count, &voice.lpf[..voice.configuration.nlpf]);
    let request = filter_request(voice, stretch.samples);
    let arrays = rusts_filter::Rusts::at(&request).stretch(&request).arrays;
    let mut after = *voice;
    after.set_excitation(&stretch.state);
    after.coefficients[..arrays.coefficients.len()].copy_from_slice(&arrays.coefficients);
    after.set_taps(&arrays.taps);
    after.meter += count as u64;
    after.left -= count;
    (arrays.samples, after)
}

/// With what comes after a frame's last sample.
pub fn ended((samples, mut voice): (Vec<f64>, Voice)) -> (Vec<f64>, Voice) {
    voice.pulse.pitch = voice.pulse.end_pitch;
    let nmcp = voice.configuration.nmcp;
    let targets = voice.targets;
    voice.coefficients[..nmcp].copy_from_slice(&targets[..nmcp]);
    (samples, voice)
}
