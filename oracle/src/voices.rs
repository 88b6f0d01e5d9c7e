//! The fixed list of the voices for a proved program: voices and their calls, and what the Rust makes of them, in words
//! of 16 hex digits.

use crate::frames::Frame;
use crate::hex_words::{print_list, print_words, read_words};
use crate::ours::Ours;
use crate::remembered::Remembered;
use crate::routes;
use crate::rusts_voice::Rusts;
use crate::stretches::{bits, floats};
use crate::voice::{Call, Kind, Outcome};
use crate::voice_structs::{Configuration, Voice};
use crate::voice_words::CONFIGURATION_WORDS;
use crate::voices_cases;
use std::cell::RefCell;
use std::path::Path;
use std::rc::Rc;

/// A voice, and what is done with it.
pub struct Case {
    pub configuration: Configuration,
    pub steps: Vec<Step>,
}

/// A call, or the voice is handed on with another meter. The list counts both as calls.
pub enum Step {
    Call(Call),
    Meter(u64),
}

/// The list's kind of the step that is no call.
const METER: u64 = 3;

/// Before a call a buffer holds these.
pub const BEFORE: f64 = 1.0;

/// Prints the voices, two real frames in this folder among what they are given.
pub fn print_cases(folder: &Path) -> Result<(), String> {
    let cases = voices_cases::all(folder)?;
    let words: Vec<u64> = cases.iter().flat_map(asked).collect();
    print_list(&words);
    Ok(())
}

/// Reads such voices and prints what the Rust, with our functions, makes of each.
pub fn print_outcomes(ours: &Rc<RefCell<Ours>>) -> Result<(), String> {
    let remembered = Remembered::new(ours);
    routes::answer_by(&remembered.answerer());
    let mut words = read_words()?.into_iter().peekable();
    while words.peek().is_some() {
        let case =
            read(&mut words).ok_or("the last voice is cut short, or has a call of no kind")?;
        print_words(&made(&case, &remembered));
    }
    Ok(())
}

/// The configuration, the number of steps, the steps.
fn asked(case: &Case) -> Vec<u64> {
    let mut words = case.configuration.words().to_vec();
    words.push(case.steps.len() as u64);
    for step in &case.steps {
        match step {
            Step::Call(call) => words.extend(asked_call(call)),
            Step::Meter(meter) => words.extend([METER, 0, *meter, 0, 0, 0]),
        }
    }
    words
}

fn asked_call(call: &Call) -> Vec<u64> {
    let Frame { lf0, spectrum, lpf } = &call.frame;
    let mut words = vec![
        call.kind as u64,
        call.buffer.len() as u64,
        call.start as u64,
    ];
    words.extend(bits(&[*lf0]));
    words.extend([spectrum.len() as u64, lpf.len() as u64]);
    words.extend(bits(spectrum).chain(bits(lpf)));
    words
}

fn read(words: &mut impl Iterator<Item = u64>) -> Option<Case> {
    let configuration: Vec<u64> = words.by_ref().take(CONFIGURATION_WORDS).collect();
    let count = words.next()?;
    Some(Case {
        configuration: Configuration::of(configuration.try_into().ok()?),
        steps: (0..count)
            .map(|_| read_step(words))
            .collect::<Option<_>>()?,
    })
}

fn read_step(words: &mut impl Iterator<Item = u64>) -> Option<Step> {
    let kind = match words.next()? {
        0 => Some(Kind::Give),
        1 => Some(Kind::Draw),
        2 => Some(Kind::WholeFrame),
        METER => None,
        _ => return None,
    };
    let (room, start) = (words.next()? as usize, words.next()?);
    let lf0 = f64::from_bits(words.next()?);
    let (nspectrum, nlpf) = (words.next()? as usize, words.next()? as usize);
    let frame = Frame {
        lf0,
        spectrum: floats(words, nspectrum)?,
        lpf: floats(words, nlpf)?,
    };
    Some(match kind {
        Some(kind) => Step::Call(Call {
            kind,
            frame,
            buffer: vec![BEFORE; room],
            start: start as usize,
        }),
        None => Step::Meter(start),
    })
}

/// The number of the open; what each call answers; the voice at the end.
fn made(case: &Case, remembered: &Rc<Remembered>) -> Vec<u64> {
    let (number, mut rusts) = Rusts::open(remembered, case.configuration);
    let mut words = vec![number];
    for step in &case.steps {
        match step {
            Step::Call(call) => words.extend(answered(call.kind, &rusts.call(call))),
            Step::Meter(meter) => rusts = with_meter(&rusts.voice(), *meter, remembered),
        }
    }
    words.extend(end(&rusts.voice()));
    words
}

fn with_meter(voice: &Voice, meter: u64, remembered: &Rc<Remembered>) -> Rusts {
    Rusts::at(remembered, Voice { meter, ..*voice })
}

/// The number; but of a give also the samples made, and the whole buffer.
fn answered(kind: Kind, outcome: &Outcome) -> Vec<u64> {
    let words = outcome.words();
    match kind {
        Kind::Give => words[..1].to_vec(),
        _ => words,
    }
}

/// Meter, samples left, first flag, pitch, counter, increment, end pitch, and the coefficients.
fn end(voice: &Voice) -> Vec<u64> {
    let mut words = vec![voice.meter, voice.left as u64, voice.first.into()];
    words.extend(voice.pulse.words());
    words.extend(bits(&voice.coefficients).take(voice.configuration.nmcp));
    words
}
