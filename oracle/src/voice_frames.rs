//! Frames for voices: as a voice has them, of every kind, and such as are to be refused; and buffers to draw into.

use crate::excitation_values::{any_float, around_zero, floats};
use crate::frames::Frame;
use crate::generated_frames::pairs;
use crate::generator::Generator;
use crate::pairs_values::PAIRS;
use crate::spectrum_values::{CEPSTRA, any_of, at_or_beside, decaying, of_size};
use crate::voice_numbers::MOST_ENTRY;
use crate::voice_structs::Configuration;

const NOT_FINITE: [f64; 3] = [f64::NAN, f64::INFINITY, f64::NEG_INFINITY];

/// So many frames, tame as a voice has them, or of every kind.
pub fn frames(
    count: usize,
    configuration: &Configuration,
    tame: bool,
    random: &mut Generator,
) -> Vec<Frame> {
    let make = if tame { tame_frame } else { wild_frame };
    (0..count).map(|_| make(configuration, random)).collect()
}

/// Its samples mostly stay finite.
fn tame_frame(configuration: &Configuration, random: &mut Generator) -> Frame {
    let &Configuration {
        nmcp,
        nlpf,
        stage,
        nodata,
        ..
    } = configuration;
    Frame {
        lf0: match random.below(8) {
            0..3 => nodata,
            3 => any_lf0(configuration, random),
            _ => 4.0 + 2.5 * random.unit(),
        },
        spectrum: match stage {
            0 => decaying(nmcp, random),
            _ => pairs(nmcp, random),
        },
        lpf: (0..nlpf)
            .map(|_| around_zero(random) / nlpf as f64)
            .collect(),
    }
}

/// Of every kind, but for entries that no frame may have.
fn wild_frame(configuration: &Configuration, random: &mut Generator) -> Frame {
    let &Configuration {
        nmcp, nlpf, stage, ..
    } = configuration;
    let kinds = if stage == 0 { &CEPSTRA[..] } else { &PAIRS };
    let mut spectrum = kinds[random.below(kinds.len() as u64) as usize](nmcp, random);
    let most = if stage == 0 { f64::MAX } else { MOST_ENTRY };
    for entry in &mut spectrum {
        if entry.is_nan() || entry.abs() > most {
            *entry = any_of(&[0.5, -0.0, most, -most, 5e-324], random);
        }
    }
    let mut lpf = floats(nlpf, 1 << random.below(10), random);
    for tap in &mut lpf {
        if !tap.is_finite() {
            *tap = any_of(&[-0.0, f64::MAX, 1e-310], random);
        }
    }
    let lf0 = any_lf0(configuration, random);
    Frame { lf0, spectrum, lpf }
}

/// At the ends, beyond them, no data and beside it, zeros, huge, tiny, any that is finite.
fn any_lf0(configuration: &Configuration, random: &mut Generator) -> f64 {
    let &Configuration {
        nodata, low, high, ..
    } = configuration;
    let any = match random.below(4) {
        0 => at_or_beside(&[nodata, low, high], random),
        1 => any_of(&[0.0, -0.0, 5e-324, -1e300, f64::MAX, 20.0, -20.0], random),
        2 => low + (high - low) * random.unit(),
        _ => any_float(random),
    };
    if any.is_finite() { any } else { nodata }
}

/// A frame with one to three faults.
pub fn spoiled(frame: &Frame, configuration: &Configuration, random: &mut Generator) -> Frame {
    let mut frame = frame.clone();
    for _ in 0..1 + random.below(3) {
        spoil(&mut frame, configuration, random);
    }
    frame
}

/// Large and equal entries and a gain below zero are faults from stage 1 on only.
fn spoil(frame: &mut Frame, configuration: &Configuration, random: &mut Generator) {
    let &Configuration {
        stage,
        log_gain,
        beta,
        ..
    } = configuration;
    let Frame { lf0, spectrum, lpf } = frame;
    let bad = any_of(&NOT_FINITE, random);
    let beyond = [
        MOST_ENTRY.next_up(),
        -MOST_ENTRY.next_up(),
        of_size(21, 1_023, random),
    ];
    match random.below(10) {
        0 => spectrum.resize(wrong(configuration.nmcp, random), 0.5),
        1 => lpf.resize(wrong(configuration.nlpf, random), 0.5),
        2 => *lf0 = bad,
        3 if !lpf.is_empty() => set_any(lpf, bad, random),
        4..6 if stage > 0 => set_any(spectrum, any_of(&beyond, random), random),
        6 if stage > 0 && beta > 0.0 && spectrum.len() > 3 => spectrum[1..4].fill(1.0),
        7 if stage > 0 && !log_gain && !spectrum.is_empty() => spectrum[0] = -3.0,
        _ => set_any(spectrum, bad, random),
    }
}

/// A length beside the right one, none, or far more.
fn wrong(right: usize, random: &mut Generator) -> usize {
    match random.below(4) {
        0 => 80,
        1 => 0,
        2 => right.saturating_sub(1),
        _ => right + 1,
    }
}

fn set_any(entries: &mut [f64], value: f64, random: &mut Generator) {
    if !entries.is_empty() {
        entries[random.below(entries.len() as u64) as usize] = value;
    }
}

/// A buffer with so much room from its start on, and the start: its contents are of any kind, most of them of a voice's size.
pub fn buffer(room: usize, random: &mut Generator) -> (Vec<f64>, usize) {
    let start = (random.below(3) * random.below(20)) as usize;
    (floats(start + room, 16, random), start)
}

/// A buffer without room: its start at its end or past it, far too.
pub fn no_room(random: &mut Generator) -> (Vec<f64>, usize) {
    let length = random.below(6) as usize;
    let past = [0, 1, 100, usize::MAX - length][random.below(4) as usize];
    (floats(length, 16, random), length + past)
}
