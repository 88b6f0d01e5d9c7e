//! Saves and restores of voices with any values, by themselves.

use crate::comparison::NAN;
use crate::float_patterns::{FRACTION, INFINITY, SIGN};
use crate::generator::Generator;
use crate::rest_records;
use crate::spectrum::DONE;
use crate::voice_numbers::NO_ROOM;
use crate::voice_sides::Functions;
use crate::voice_structs::Voice;
use crate::voice_tally::Tally;
use crate::voice_values::{any_configuration, any_voice};

/// So many voices.
const VOICES: usize = 2_000;

/// The slots of the voice that is saved, and of the one that is restored into.
const FROM: usize = 0;
const INTO: usize = 1;

/// Voices of any values that keep the rules, their NaNs of any form: saved into too little room and into enough, restored
/// into any voice, and saved again.
pub fn any_voices(functions: &Functions, random: &mut Generator) -> bool {
    let mut tally = Tally::new("saved and restored");
    for _ in 0..VOICES {
        let voice = any_voice(any_configuration(random), random);
        tally.written();
        let words = with_any_nans(voice.words(), random);
        functions.voices.borrow_mut().set_words(FROM, &words);
        let size = rest_records::size(&voice.configuration);
        let less = any_less(size, random);
        save(functions, FROM, &voice, less, &mut tally);
        let more = size + (random.below(2) * random.below(100)) as usize;
        let bytes = save(functions, FROM, &voice, more, &mut tally);
        let into = any_other(random);
        functions.voices.borrow_mut().set_voice(INTO, &into);
        restore(functions, INTO, &into, &bytes[..size], &mut tally);
        save(functions, INTO, &voice, size, &mut tally);
    }
    let met = tally.has_met(&[("save", &[DONE, NO_ROOM]), ("restore", &[DONE])]);
    tally.finish() && met
}

/// Less than a size: by a byte, by a record, none at all, or any.
pub fn any_less(size: usize, random: &mut Generator) -> usize {
    match random.below(4) {
        0 => size - 1,
        1 => size - 16,
        2 => 0,
        _ => random.below(size as u64) as usize,
    }
}

/// A voice to be restored into: idle, fresh, busy, of any words at all.
pub fn any_other(random: &mut Generator) -> Voice {
    match random.below(4) {
        0 => Voice::idle(),
        1 => Voice::fresh(any_configuration(random)),
        2 => any_voice(any_configuration(random), random),
        _ => Voice::read(&mut std::iter::repeat_with(|| random.word())).expect("words without end"),
    }
}

/// Saves what is in a slot, which must come to what a save of this voice does; gives the bytes that are right.
pub fn save(
    functions: &Functions,
    slot: usize,
    voice: &Voice,
    length: usize,
    tally: &mut Tally,
) -> Vec<u8> {
    let buffer = vec![0xA5; length];
    let own = functions.voices.borrow_mut().save(slot, &buffer);
    let right = rest_records::save(voice, &buffer);
    tally.saved(&voice.configuration, &own, &right);
    right.buffer
}

/// Restores into what is in a slot, which is this voice; gives the right number and voice after it.
pub fn restore(
    functions: &Functions,
    slot: usize,
    into: &Voice,
    bytes: &[u8],
    tally: &mut Tally,
) -> (u64, Voice) {
    let own = functions.voices.borrow_mut().restore(slot, bytes);
    let (right, after) = rest_records::restore(into, bytes);
    tally.restored(&after.configuration, own, right);
    let own = functions.voices.borrow_mut().voice(slot);
    tally.voice("voice after a restore", &own, &after);
    (right, after)
}

/// Another NaN for each: of either sign, quiet or not, with any payload.
fn with_any_nans(mut words: Vec<u64>, random: &mut Generator) -> Vec<u64> {
    for word in words.iter_mut().filter(|word| **word == NAN) {
        *word = INFINITY | 1 << random.below(52) | random.word() & (SIGN | FRACTION);
    }
    words
}
