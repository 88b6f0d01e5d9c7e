//! Other values in rest records: near the limits and the other rules of restore, and NaNs of every form.

use crate::compare_voice_open::each_alone;
use crate::comparison::NAN;
use crate::excitation_values::any_float;
use crate::generator::Generator;
use crate::rest_damage::place;
use crate::rest_records::{Record, count};
use crate::voice_numbers::MOST_METER;
use crate::voice_structs::Configuration;

/// The slots of flags and numbers, and the first ones of the pulse train and of the line.
const LOG_GAIN: usize = 3;
const METER: usize = 12;
const LEFT: usize = 13;
const FIRST: usize = 14;
const PITCH: usize = 15;
const LINE: usize = 19;

fn any_of(values: &[u64], random: &mut Generator) -> u64 {
    values[place(values.len(), random)]
}

/// Sets the value of a slot, where it has a record.
fn set(records: &mut [Record], slot: usize, value: u64) {
    if let Some(record) = records.get_mut(slot) {
        record[1] = value;
    }
}

/// A value of the configuration at its end or past it, and often nothing counted, which fits every fperiod.
pub fn near_a_limit(records: &mut [Record], random: &mut Generator) {
    if random.below(2) == 0 {
        set(records, METER, 0);
        set(records, LEFT, 0);
    }
    let all = each_alone();
    for &(slot, value) in &all[place(all.len(), random)].0 {
        set(records, slot, value);
    }
}

/// Meter and samples left that fit one another, or nearly do; or the values used, at and past their end.
pub fn counted(records: &mut [Record], configuration: &Configuration, random: &mut Generator) {
    let fperiod = configuration.fperiod as u64;
    let left = any_of(&[0, 1, fperiod - 1, fperiod, fperiod + 1, u64::MAX], random);
    let last = MOST_METER / fperiod * fperiod;
    let sums = [0, fperiod, 7 * fperiod, last, last + fperiod, MOST_METER];
    let sum = any_of(&sums, random).wrapping_add(random.below(8) / 7);
    match random.below(4) {
        0 => set(records, METER, sum),
        1 => set(records, LEFT, left),
        2 => {
            set(records, LEFT, left);
            set(records, METER, sum.wrapping_sub(left));
        }
        _ => {
            let value = any_of(&[0, 1, 63, 64, 65, 1 << 32, u64::MAX], random);
            set(records, used(configuration), value);
        }
    }
}

/// A flag of any kind.
pub fn flagged(records: &mut [Record], random: &mut Generator) {
    let value = any_of(&[0, 1, 2, 3, 256, 1 << 32, 1 << 63, u64::MAX], random);
    match random.below(4) {
        0 => set(records, LOG_GAIN, value),
        1 => set(records, FIRST, value),
        // With nothing counted the first flag may be 1.
        _ => {
            set(records, METER, 0);
            set(records, LEFT, 0);
            set(records, FIRST, value);
        }
    }
}

/// Another nmcp, nlpf and stage that make as many records, within the limits or just past them, or modulo 2^64.
pub fn as_many(records: &mut [Record], configuration: &Configuration, random: &mut Generator) {
    let other = match random.below(4) {
        0 => modulo(*configuration, random),
        _ => another(configuration, random),
    };
    set(records, 0, other.nmcp as u64);
    set(records, 1, other.nlpf as u64);
    set(records, 2, other.stage);
    set(records, used(&other), random.below(65));
}

/// The slot of the number of values used.
fn used(configuration: &Configuration) -> usize {
    LINE + configuration.nlpf.wrapping_mul(2) + 1
}

/// Twice nlpf is the same in 64 bits, or at stage 0 that and nine times nmcp.
fn modulo(configuration: Configuration, random: &mut Generator) -> Configuration {
    let (nmcp, nlpf) = [(0, 1 << 63), (1 << 63, 1 << 62)][place(2, random)];
    Configuration {
        nmcp: configuration.nmcp + nmcp,
        nlpf: configuration.nlpf + nlpf,
        ..configuration
    }
}

fn another(configuration: &Configuration, random: &mut Generator) -> Configuration {
    loop {
        let other = Configuration {
            nmcp: place(67, random),
            stage: random.below(10),
            nlpf: 0,
            ..*configuration
        };
        let missing = count(configuration).checked_sub(count(&other));
        if let Some(missing @ ..=132) = missing
            && missing.is_multiple_of(2)
        {
            let nlpf = missing / 2;
            return Configuration { nlpf, ..other };
        }
    }
}

/// A float after the configuration is a NaN of one form or another, or any.
pub fn another_float(records: &mut [Record], random: &mut Generator) {
    let nans = [
        NAN,
        NAN,
        NAN,
        NAN | 1,
        NAN | 1 << 63,
        NAN - 1,
        NAN ^ 1 << 51 | 1,
    ];
    let value = match random.below(2) {
        0 => any_of(&nans, random),
        _ => any_float(random).to_bits(),
    };
    let slot = PITCH + place(records.len().saturating_sub(PITCH), random);
    set(records, slot, value);
}
