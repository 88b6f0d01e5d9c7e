//! Generated frames for stages 1 to 8: line spectral pairs that jump from frame to frame.

use crate::frames::{Frame, FrameSet, Settings};
use crate::generator::Generator;
use pinned::constants::NODATA;
use std::f64::consts::PI;

const FRAMES: usize = 100;

/// Two sets for each stage, with either kind of gain; two of longer spectra; one with frames to refuse.
pub fn sets(seed: u64) -> Vec<FrameSet> {
    let mut random = Generator::new(seed);
    let mut sets = Vec::new();
    for stage in 1..=8 {
        let log_gain = stage % 2 == 0;
        sets.push(set(settings(stage, 10, log_gain, 0.0), &mut random));
        sets.push(set(settings(stage, 25, !log_gain, 0.3), &mut random));
    }
    for nmcp in [40, 64] {
        sets.push(set(settings(2, nmcp, false, 0.0), &mut random));
    }
    sets.push(with_refusals(set(settings(3, 10, false, 0.3), &mut random)));
    sets
}

/// With the postfilter go filter taps, so that both ways of the excitation come up.
fn settings(stage: usize, nmcp: usize, log_gain: bool, beta: f64) -> Settings {
    Settings {
        nmcp,
        nlpf: if beta > 0.0 { 31 } else { 0 },
        stage,
        log_gain,
        rate: 16_000,
        alpha: 0.42,
        beta,
        volume: 1.0,
        fperiod: 80,
    }
}

/// Up to 25 entries are held to a difference: with more, the recursion of lsp2lpc makes the last bit of
/// a cosine as large as the samples.
fn set(settings: Settings, random: &mut Generator) -> FrameSet {
    let gain = if settings.log_gain {
        "log gain"
    } else {
        "gain"
    };
    FrameSet {
        name: format!(
            "stage {}, {gain}, nmcp {}, beta {}",
            settings.stage, settings.nmcp, settings.beta
        ),
        frames: (0..FRAMES)
            .map(|index| frame(&settings, index, random))
            .collect(),
        refusals: 0,
        most: if settings.nmcp <= 25 {
            1e-6
        } else {
            f64::INFINITY
        },
        settings,
    }
}

/// Ten voiced frames, then ten unvoiced.
fn frame(settings: &Settings, index: usize, random: &mut Generator) -> Frame {
    let voiced = (index / 10).is_multiple_of(2);
    Frame {
        lf0: if voiced { 5.0 + random.unit() } else { NODATA },
        spectrum: pairs(settings.nmcp, random),
        lpf: (0..settings.nlpf)
            .map(|_| random.unit() / settings.nlpf as f64)
            .collect(),
    }
}

/// Rising frequencies below PI. The pinned Rust takes entry 0, the gain, for the first of them, so
/// the gain is one here: the filter is then stable, where the postfilter leaves the gain alone.
pub fn pairs(nmcp: usize, random: &mut Generator) -> Vec<f64> {
    let step = PI / (nmcp + 1) as f64;
    (1..=nmcp)
        .map(|place| step * (place as f64 + 0.6 * (random.unit() - 0.5)))
        .collect()
}

/// Of every ten frames, from the very first on, makes one's gain negative, which is outside the power,
/// and three entries of another equal, of which the postfilter makes a NaN, outside cos.
fn with_refusals(mut set: FrameSet) -> FrameSet {
    for (index, frame) in set.frames.iter_mut().enumerate() {
        match index % 10 {
            0 => frame.spectrum[0] = -frame.spectrum[0],
            7 => frame.spectrum[1..4].fill(1.0),
            _ => continue,
        }
        set.refusals += 1;
    }
    set.name.push_str(", some to refuse");
    set
}
