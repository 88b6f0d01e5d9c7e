//! The bridge (bridge.c), run under an emulator, with both ends of its pipes.

use crate::excitation_structs::Pulse;
use crate::filter;
use crate::ours::{BLOCK, Operation};
use crate::rest::{Cut, CutOutcome, Saved, byte_words};
use crate::sound::{self, Heard, Writing, Written};
use crate::spectrum;
use crate::stretches::{Outcome, Request};
use crate::voice;
use crate::voice_structs::{Configuration, Voice};
use crate::voice_words::VOICE_WORDS;
use std::io::{Read, Result, Write};
use std::process::{Child, ChildStdin, ChildStdout, Command, Stdio};

/// The excitation's functions and, under one number each, those on spectra, the filters, the voices and those on sound
/// files: the bridge's numbers. A request is one call.
#[derive(Clone, Copy)]
enum Call {
    Stretch = 11,
    Start = 12,
    End = 13,
    Spectrum = 14,
    Filter = 15,
    Voice = 16,
    Sound = 17,
}

/// What is done with a voice beside its calls.
#[derive(Clone, Copy)]
enum Access {
    Open = 3,
    Read = 4,
    Write = 5,
    Save = 6,
    Restore = 7,
    Cut = 8,
}

pub struct Bridge {
    program: Child,
    requests: ChildStdin,
    answers: ChildStdout,
}

impl Bridge {
    pub fn open(emulator: &str, bridge: &str) -> Result<Self> {
        let mut program = Command::new(emulator)
            .arg(bridge)
            .stdin(Stdio::piped())
            .stdout(Stdio::piped())
            .spawn()?;
        let requests = program.stdin.take().expect("a piped input");
        let answers = program.stdout.take().expect("a piped output");
        Ok(Self {
            program,
            requests,
            answers,
        })
    }

    /// The answers to a block of inputs.
    pub fn answers(&mut self, operation: Operation, inputs: &[u64]) -> Vec<u64> {
        let count = inputs.len() / operation.arity();
        self.exchange([operation as u64, count as u64], inputs, count)
    }

    pub fn stretch(&mut self, request: &Request) -> Outcome {
        let Request { count, lpf, .. } = request;
        let answers = Outcome::words_for(*count, lpf.len());
        let words = self.call(Call::Stretch, &request.words(), answers);
        Outcome::read(&mut words.into_iter(), *count, lpf.len()).expect("words enough")
    }

    pub fn start(&mut self, pulse: Pulse, voiced: bool, period: f64, fperiod: u64) -> Pulse {
        let mut inputs = pulse.words().to_vec();
        inputs.extend([voiced.into(), period.to_bits(), fperiod]);
        self.pulse(Call::Start, &inputs)
    }

    pub fn end(&mut self, pulse: Pulse) -> Pulse {
        self.pulse(Call::End, &pulse.words())
    }

    pub fn spectrum(&mut self, request: &spectrum::Request) -> spectrum::Outcome {
        let lengths = request.lengths();
        let answers = 1 + lengths.iter().sum::<usize>();
        let words = self.call(Call::Spectrum, &request.words(), answers);
        spectrum::Outcome::read(&mut words.into_iter(), lengths).expect("words enough")
    }

    pub fn filter(&mut self, request: &filter::Request) -> filter::Outcome {
        let answers = 1 + request.arrays.all().map(Vec::len).sum::<usize>();
        let words = self.call(Call::Filter, &request.words(), answers);
        filter::Outcome::read(&mut words.into_iter(), request).expect("words enough")
    }

    pub fn open_voice(&mut self, slot: usize, configuration: Configuration) -> u64 {
        self.voice(Access::Open as u64, slot, &configuration.words(), 1)[0]
    }

    pub fn call_voice(&mut self, slot: usize, call: &voice::Call) -> voice::Outcome {
        let room = call.buffer.len();
        let words = self.voice(call.kind as u64, slot, &call.words(), 2 + room);
        voice::Outcome::read(&mut words.into_iter(), room).expect("words enough")
    }

    pub fn read_voice(&mut self, slot: usize) -> Voice {
        let words = self.voice(Access::Read as u64, slot, &[], VOICE_WORDS);
        Voice::read(&mut words.into_iter()).expect("words enough")
    }

    pub fn write_voice(&mut self, slot: usize, words: &[u64]) {
        self.voice(Access::Write as u64, slot, words, 0);
    }

    pub fn save_voice(&mut self, slot: usize, buffer: &[u8]) -> Saved {
        let answers = 2 + buffer.len().div_ceil(8);
        let words = self.voice(Access::Save as u64, slot, &byte_words(buffer), answers);
        Saved::read(&mut words.into_iter(), buffer.len()).expect("words enough")
    }

    pub fn restore_voice(&mut self, slot: usize, bytes: &[u8]) -> u64 {
        self.voice(Access::Restore as u64, slot, &byte_words(bytes), 1)[0]
    }

    /// As many cuts in one request as there is room for their answers.
    pub fn cut_voice(&mut self, slot: usize, cuts: &[Cut]) -> Vec<CutOutcome> {
        let most = cuts.iter().map(Cut::answers).max().unwrap_or(1);
        let mut outcomes = Vec::new();
        for cuts in cuts.chunks(BLOCK / most) {
            let mut words = vec![cuts.len() as u64];
            words.extend(cuts.iter().flat_map(Cut::words));
            let answers = cuts.iter().map(Cut::answers).sum();
            let mut words = self
                .voice(Access::Cut as u64, slot, &words, answers)
                .into_iter();
            let read = |cut| CutOutcome::read(&mut words, cut).expect("words enough");
            outcomes.extend(cuts.iter().map(read));
        }
        outcomes
    }

    pub fn write_sound(&mut self, writing: &Writing) -> Written {
        let length = writing.buffer.len();
        let words = self.call(Call::Sound, &writing.words(), sound::answers(length));
        Written::read(&mut words.into_iter(), length).expect("words enough")
    }

    pub fn read_sound(&mut self, bytes: &[u8], buffer: &[i32]) -> Heard {
        let asked = Heard::asked(bytes, buffer);
        let words = self.call(Call::Sound, &asked, sound::answers(4 * buffer.len()));
        Heard::read(&mut words.into_iter(), buffer.len()).expect("words enough")
    }

    fn voice(&mut self, what: u64, slot: usize, words: &[u64], answers: usize) -> Vec<u64> {
        let inputs: Vec<u64> = [what, slot as u64].iter().chain(words).copied().collect();
        self.call(Call::Voice, &inputs, answers)
    }

    fn pulse(&mut self, call: Call, inputs: &[u64]) -> Pulse {
        let words = self.call(call, inputs, 4);
        Pulse::read(&mut words.into_iter()).expect("four words")
    }

    fn call(&mut self, call: Call, inputs: &[u64], answers: usize) -> Vec<u64> {
        self.exchange([call as u64, inputs.len() as u64], inputs, answers)
    }

    /// Sends a request whole, then reads its answers: the bridge reads a request whole before it answers.
    fn exchange(&mut self, header: [u64; 2], inputs: &[u64], answers: usize) -> Vec<u64> {
        let words = header.iter().chain(inputs);
        let request: Vec<u8> = words.flat_map(|word| word.to_le_bytes()).collect();
        let mut reply = vec![0; answers * 8];
        self.requests
            .write_all(&request)
            .and_then(|()| self.requests.flush())
            .and_then(|()| self.answers.read_exact(&mut reply))
            .expect("the bridge ended early");
        let (words, _) = reply.as_chunks::<8>();
        words.iter().map(|word| u64::from_le_bytes(*word)).collect()
    }
}

impl Drop for Bridge {
    /// The emulator is not left behind when the driver ends.
    fn drop(&mut self) {
        let _ = self.program.kill();
        let _ = self.program.wait();
    }
}
