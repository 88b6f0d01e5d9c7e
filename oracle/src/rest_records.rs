//! The rest records of document 01: which bytes save makes of a voice, and which voice restore makes of bytes.

use crate::excitation_structs::Pulse;
use crate::filter::Filter;
use crate::rest::Saved;
use crate::spectrum::DONE;
use crate::stretches::{bits, floats};
use crate::voice_numbers::{IDLE, NO_ROOM, RECORDS, is_idle, keeps_limits};
use crate::voice_structs::{Configuration, Voice};
use crate::voice_words::CONFIGURATION_WORDS;

/// A slot's number and its value.
pub type Record = [u64; 2];

/// The bytes of a record.
const RECORD: usize = size_of::<Record>();

/// The most bytes that a voice is saved as.
pub const MOST_BYTES: usize = 917 * RECORD;

/// What a save into this buffer comes to.
pub fn save(voice: &Voice, buffer: &[u8]) -> Saved {
    let mut saved = Saved {
        number: IDLE,
        bytes: 0,
        buffer: buffer.to_vec(),
    };
    if is_idle(voice) {
        return saved;
    }
    let records = bytes_of(&numbered(values(voice)));
    match saved.buffer.get_mut(..records.len()) {
        None => saved.number = NO_ROOM,
        Some(front) => {
            front.copy_from_slice(&records);
            (saved.number, saved.bytes) = (DONE, records.len());
        }
    }
    saved
}

/// The number of a restore, and the voice after it.
pub fn restore(voice: &Voice, bytes: &[u8]) -> (u64, Voice) {
    match voice_of(bytes) {
        Some(restored) => (DONE, restored),
        None => (RECORDS, *voice),
    }
}

/// The bytes that a voice of this configuration is saved as.
pub fn size(configuration: &Configuration) -> usize {
    RECORD * count(configuration)
}

/// The records of such a voice.
pub fn count(configuration: &Configuration) -> usize {
    let &Configuration {
        nmcp, nlpf, stage, ..
    } = configuration;
    match stage as usize {
        0 => 103 + 2 * nlpf + 9 * nmcp,
        stage => 85 + 2 * nlpf + (3 + stage) * nmcp,
    }
}

/// The values of a voice in the order of their slots.
pub fn values(voice: &Voice) -> Vec<u64> {
    let Configuration { nmcp, nlpf, .. } = voice.configuration;
    let mut values = voice.configuration.words().to_vec();
    values.extend([voice.meter, voice.left as u64, voice.first.into()]);
    values.extend(voice.pulse.words());
    values.extend(bits(&voice.line[..nlpf]).chain(bits(&voice.lpf[..nlpf])));
    values.extend([voice.random.next, voice.random.used as u64]);
    values.extend(bits(&voice.random.queue));
    for array in [&voice.coefficients, &voice.increments, &voice.targets] {
        values.extend(bits(&array[..nmcp]));
    }
    values.extend(bits(&voice.taps().concat()));
    assert_eq!(values.len(), count(&voice.configuration));
    values
}

/// Each value with the number of its slot.
pub fn numbered(values: Vec<u64>) -> Vec<Record> {
    (0..)
        .zip(values)
        .map(|(slot, value)| [slot, value])
        .collect()
}

pub fn bytes_of(records: &[Record]) -> Vec<u8> {
    let words = records.iter().flatten();
    words.flat_map(|word| word.to_le_bytes()).collect()
}

/// The voice of acceptable records. That its values are the ones that were read leaves flags of 0 and 1 and one form of a NaN.
fn voice_of(bytes: &[u8]) -> Option<Voice> {
    let (words, rest) = bytes.as_chunks::<8>();
    let words: Vec<u64> = words.iter().map(|word| u64::from_le_bytes(*word)).collect();
    let (records, half) = words.as_chunks::<2>();
    let ordered = (0..).zip(records).all(|(slot, record)| record[0] == slot);
    let read: Vec<u64> = records.iter().map(|record| record[1]).collect();
    let configuration = Configuration::of(*read.first_chunk()?);
    let whole = rest.is_empty() && half.is_empty();
    if !whole || !ordered || !keeps_limits(&configuration) || read.len() != count(&configuration) {
        return None;
    }
    let voice = with(configuration, &read)?;
    (!is_idle(&voice) && values(&voice) == read).then_some(voice)
}

/// The voice with these values, and zeros where it has no slot.
fn with(configuration: Configuration, values: &[u64]) -> Option<Voice> {
    let Configuration {
        nmcp, nlpf, stage, ..
    } = configuration;
    let words = &mut values[CONFIGURATION_WORDS..].iter().copied();
    let mut voice = Voice {
        configuration,
        meter: words.next()?,
        left: words.next()? as usize,
        first: words.next()? != 0,
        pulse: Pulse::read(words)?,
        ..Voice::idle()
    };
    voice.line[..nlpf].copy_from_slice(&floats(words, nlpf)?);
    voice.lpf[..nlpf].copy_from_slice(&floats(words, nlpf)?);
    (voice.random.next, voice.random.used) = (words.next()?, words.next()? as usize);
    voice.random.queue = floats(words, 64)?.try_into().ok()?;
    for array in [
        &mut voice.coefficients,
        &mut voice.increments,
        &mut voice.targets,
    ] {
        array[..nmcp].copy_from_slice(&floats(words, nmcp)?);
    }
    let lengths = Filter::of_stage(stage).lengths(nmcp).into_iter();
    let taps: Option<Vec<Vec<f64>>> = lengths.map(|length| floats(words, length)).collect();
    voice.set_taps(&taps?);
    Some(voice)
}
