//! Ways to damage rest records: some leave them acceptable.

use crate::generator::Generator;
use crate::rest_records::{Record, bytes_of, numbered, values};
use crate::rest_values::{another_float, as_many, counted, flagged, near_a_limit};
use crate::voice_structs::{Configuration, Voice};

/// The records of a voice with one damage or two and, one in eight, cut short anywhere or with a few bytes more.
pub fn damaged_records(voice: &Voice, random: &mut Generator) -> Vec<u8> {
    let mut records = numbered(values(voice));
    for _ in 0..1 + random.below(4) / 3 {
        damage(&mut records, &voice.configuration, random);
    }
    let mut bytes = bytes_of(&records);
    let length = bytes.len() as u64;
    match random.below(16) {
        0 => bytes.truncate(random.below(length + 1) as usize),
        1 => bytes.resize((length + 1 + random.below(40)) as usize, 0),
        _ => {}
    }
    bytes
}

/// Damages records, of which there may be any number after another damage.
fn damage(records: &mut Vec<Record>, configuration: &Configuration, random: &mut Generator) {
    match random.below(14) {
        0 => fewer(records, random),
        1 => more(records, random),
        2 => exchanged(records, random),
        3 => shuffled(records, random),
        4 => repeated(records, random),
        5 => another_slot(records, random),
        6..8 => near_a_limit(records, random),
        8..10 => counted(records, configuration, random),
        10 => flagged(records, random),
        11 => as_many(records, configuration, random),
        _ => another_float(records, random),
    }
}

/// A place in a list of this length; 0 where it is empty.
pub fn place(length: usize, random: &mut Generator) -> usize {
    random.below(length.max(1) as u64) as usize
}

/// None, without the last, without any one, or without so many of them.
fn fewer(records: &mut Vec<Record>, random: &mut Generator) {
    let place = place(records.len(), random);
    match random.below(8) {
        0 => records.clear(),
        1..3 => records.truncate(records.len().saturating_sub(1)),
        3..5 => records.truncate(place),
        _ => {
            records.drain(place..records.len().min(place + 1));
        }
    }
}

/// With one more, of the next slot or of any.
fn more(records: &mut Vec<Record>, random: &mut Generator) {
    let slot = match random.below(2) {
        0 => records.len() as u64,
        _ => random.below(1_000),
    };
    records.push([slot, 0]);
}

/// Two records, or only their values, in each other's place.
fn exchanged(records: &mut [Record], random: &mut Generator) {
    let [a, b] = [(); 2].map(|()| place(records.len(), random));
    if records.is_empty() {
        return;
    }
    records.swap(a, b);
    if random.below(2) == 0 {
        (records[a][0], records[b][0]) = (records[b][0], records[a][0]);
    }
}

/// In any order.
fn shuffled(records: &mut [Record], random: &mut Generator) {
    for end in (1..records.len()).rev() {
        records.swap(end, place(end + 1, random));
    }
}

/// A record twice: beside itself, or in the place of another.
fn repeated(records: &mut Vec<Record>, random: &mut Generator) {
    let [a, b] = [(); 2].map(|()| place(records.len(), random));
    match (records.get(a).copied(), random.below(2)) {
        (Some(record), 0) => records.insert(a, record),
        (Some(record), _) => records[b] = record,
        (None, _) => {}
    }
}

/// A slot's number is one beside it, or any.
fn another_slot(records: &mut [Record], random: &mut Generator) {
    let at = place(records.len(), random);
    if let Some(record) = records.get_mut(at) {
        record[0] = match random.below(4) {
            0 => record[0] ^ 1 << random.below(64),
            1 => record[0].wrapping_sub(1),
            2 => record[0].wrapping_add(1),
            _ => random.word(),
        };
    }
}
