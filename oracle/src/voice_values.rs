//! Configurations across every limit, and voices of any values.

use crate::excitation_structs::Random;
use crate::excitation_values::{any_noise, any_pulse, floats};
use crate::filter_values::any_volume;
use crate::generator::Generator;
use crate::spectrum_values::{any_alpha, any_beta};
use crate::voice_numbers::MOST_METER;
use crate::voice_structs::{Configuration, Voice};
use pinned::constants::{MAX_LF0, MIN_LF0, NODATA};

/// Every remainder of a group of four, both ends, and the usual.
const NMCPS: [usize; 8] = [2, 3, 5, 6, 7, 25, 63, 64];
const NLPFS: [usize; 5] = [0, 1, 2, 31, 64];

/// So many with each nmcp, nlpf, stage and gain.
const ROUNDS: usize = 3;

/// Every nmcp with every nlpf, stage and gain, and all else in any way, in any order.
pub fn configurations(random: &mut Generator) -> Vec<Configuration> {
    let mut all = Vec::new();
    for (nmcp, nlpf) in NMCPS
        .iter()
        .flat_map(|nmcp| NLPFS.map(|nlpf| (*nmcp, nlpf)))
    {
        for stage in 0..=8 {
            for log_gain in [false, true].repeat(ROUNDS) {
                all.push(Configuration {
                    nmcp,
                    nlpf,
                    stage,
                    log_gain,
                    ..any_configuration(random)
                });
            }
        }
    }
    shuffle(&mut all, random);
    all
}

fn shuffle(all: &mut [Configuration], random: &mut Generator) {
    for place in (1..all.len()).rev() {
        all.swap(place, random.below(place as u64 + 1) as usize);
    }
}

/// Within the limits, which come up often. One in eight has other ends than the Rust's constants and another no-data
/// number.
pub fn any_configuration(random: &mut Generator) -> Configuration {
    let (nodata, low, high) = match random.below(8) {
        0 => other_ends(random),
        _ => (NODATA, MIN_LF0, MAX_LF0),
    };
    Configuration {
        nmcp: NMCPS[random.below(8) as usize],
        nlpf: NLPFS[random.below(5) as usize],
        stage: random.below(9),
        log_gain: random.below(2) == 0,
        rate: match random.below(6) {
            0 => 1,
            1 => 192_000,
            2 => 1 + random.below(192_000),
            _ => 16_000,
        },
        alpha: any_alpha(random),
        beta: match random.below(3) {
            0 => any_beta(random),
            _ => 0.0,
        },
        volume: Some(any_volume(random))
            .filter(|volume| volume.is_finite())
            .unwrap_or(1.0),
        fperiod: any_fperiod(random),
        nodata,
        low,
        high,
    }
}

fn any_fperiod(random: &mut Generator) -> usize {
    let between = 3 + random.below(2_000) as usize;
    match random.below(8) {
        0 => 1,
        1 => 2,
        2 => 80,
        3..6 => 4_800,
        _ => between,
    }
}

/// Between the Rust's, now and then equal, and any number for no data.
fn other_ends(random: &mut Generator) -> (f64, f64, f64) {
    let mut end = || MIN_LF0 + (MAX_LF0 - MIN_LF0) * random.unit();
    let (x, y) = (end(), end());
    let high = if random.below(4) == 0 { x } else { x.max(y) };
    let nodata = [0.0, -0.0, x, f64::MAX, -3.5][random.below(5) as usize];
    (nodata, x.min(y), high)
}

/// A voice that keeps restore's rules, in a state that perhaps no frame leads to: any values in it, of which one in
/// so many is of any kind, and any number of samples left.
pub fn any_voice(configuration: Configuration, random: &mut Generator) -> Voice {
    let one_in = 4 << random.below(10);
    let Configuration {
        nmcp,
        nlpf,
        fperiod,
        ..
    } = configuration;
    let mut voice = Voice::fresh(configuration);
    voice.pulse = any_pulse(random);
    voice.random = with_used(any_noise(one_in, random), random);
    for (array, count) in [
        (&mut voice.line, nlpf),
        (&mut voice.lpf, nlpf),
        (&mut voice.coefficients, nmcp),
        (&mut voice.increments, nmcp),
        (&mut voice.targets, nmcp),
    ] {
        array[..count].copy_from_slice(&floats(count, one_in, random));
    }
    let lengths: Vec<usize> = voice.taps().iter().map(Vec::len).collect();
    let taps: Vec<Vec<f64>> = lengths
        .iter()
        .map(|&length| floats(length, one_in, random))
        .collect();
    voice.set_taps(&taps);
    voice.first = random.below(8) == 0;
    if !voice.first {
        voice.left = random.below(2) as usize * random.below(fperiod as u64 + 1) as usize;
        let frames = 1 + random.below(MOST_METER / fperiod as u64);
        voice.meter = frames * fperiod as u64 - voice.left as u64;
    }
    voice
}

fn with_used(noise: Random, random: &mut Generator) -> Random {
    Random {
        used: random.below(65) as usize,
        ..noise
    }
}
