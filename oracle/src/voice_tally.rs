//! Counts and shows what differs between the Rust's voices and ours, and counts calls by their number.

use crate::comparison::SHOWN;
use crate::spectrum::DONE;
use crate::voice::{Call, Kind, Outcome};
use crate::voice_slots::slot;
use crate::voice_structs::{Configuration, Voice};
use std::collections::BTreeMap;
use std::time::Instant;

pub struct Tally {
    name: String,
    voices: u64,
    samples: u64,
    finite: u64,
    cuts: u64,
    states: u64,
    /// The calls by kind and number.
    calls: BTreeMap<(&'static str, u64), u64>,
    differences: u64,
    started: Instant,
}

impl Tally {
    pub fn new(name: &str) -> Self {
        Self {
            name: format!("voices, {name}"),
            voices: 0,
            samples: 0,
            finite: 0,
            cuts: 0,
            states: 0,
            calls: BTreeMap::new(),
            differences: 0,
            started: Instant::now(),
        }
    }

    /// A voice that was written and not opened.
    pub fn written(&mut self) {
        self.voices += 1;
    }

    /// A call by its number.
    pub fn count(&mut self, kind: &'static str, number: u64) {
        *self.calls.entry((kind, number)).or_default() += 1;
    }

    /// A stream was cut between two draws.
    pub fn cut(&mut self) {
        self.cuts += 1;
    }

    pub fn cuts(&self) -> u64 {
        self.cuts
    }

    /// The number of an open.
    pub fn open(&mut self, configuration: &Configuration, own: u64, right: u64) {
        self.voices += 1;
        self.count("open", right);
        self.words("open", configuration, [own], [right], |_| {
            "number".to_string()
        });
    }

    /// What ours made of a call beside what is right: the number, the samples made, the whole buffer, all NaNs one.
    pub fn call(
        &mut self,
        configuration: &Configuration,
        call: &Call,
        own: &Outcome,
        right: &Outcome,
    ) {
        self.count(call.kind.name(), right.number);
        if right.made > 0 {
            let samples = &right.buffer[call.start..][..right.made];
            self.finite += samples.iter().filter(|x| x.is_finite()).count() as u64;
            self.samples += right.made as u64;
        }
        let what = call.kind.name();
        self.words(
            what,
            configuration,
            own.words(),
            right.words(),
            |place| match place {
                0 => "number".to_string(),
                1 => "samples made".to_string(),
                _ => format!(
                    "entry {} of {} from {}",
                    place - 2,
                    call.buffer.len(),
                    call.start
                ),
            },
        );
    }

    /// A whole voice of ours beside what is right.
    pub fn voice(&mut self, what: &str, own: &Voice, right: &Voice) {
        self.states += 1;
        let configuration = &right.configuration;
        self.words(what, configuration, own.words(), right.words(), slot);
    }

    /// Counts and shows the first difference of two lists of words.
    pub fn words(
        &mut self,
        what: &str,
        configuration: &Configuration,
        own: impl IntoIterator<Item = u64>,
        right: impl IntoIterator<Item = u64>,
        slot: impl Fn(usize) -> String,
    ) {
        let mut words = own.into_iter().zip(right).enumerate();
        if let Some((place, (own, right))) = words.find(|(_, (own, right))| own != right) {
            self.differences += 1;
            if self.differences <= SHOWN {
                let (name, slot) = (&self.name, slot(place));
                println!(
                    "{name}: {what}: {slot}: ours {own:016x}, right {right:016x}; {}",
                    configuration.shown()
                );
            }
        }
    }

    /// Whether every one of these calls and numbers came up; says which did not.
    pub fn has_met(&self, kinds: &[(&'static str, &[u64])]) -> bool {
        let mut met = true;
        for &(kind, numbers) in kinds {
            for &number in numbers {
                if !self.calls.contains_key(&(kind, number)) {
                    println!("{}: no {kind} was to answer {number}", self.name);
                    met = false;
                }
            }
        }
        met
    }

    /// Whether at least half of the samples are finite, and a fiftieth not: else their equality tells little.
    pub fn is_fair(&self) -> bool {
        let fair =
            self.finite * 2 >= self.samples && (self.samples - self.finite) * 50 >= self.samples;
        if !fair {
            println!(
                "{}: not half of the samples finite and a fiftieth not",
                self.name
            );
        }
        fair
    }

    /// The frames that were taken.
    fn frames(&self) -> u64 {
        let kinds = [Kind::Give, Kind::WholeFrame].map(|kind| (kind.name(), DONE));
        kinds.iter().filter_map(|kind| self.calls.get(kind)).sum()
    }

    /// Prints the lines, and says whether all were equal.
    pub fn finish(self) -> bool {
        let cuts = match self.cuts {
            0 => String::new(),
            cuts => format!("{cuts} cuts, "),
        };
        println!(
            "{}: {} voices, {} frames, {} samples, {} finite, {} not, {}{} states, {} differences ({:.1} s)",
            self.name,
            self.voices,
            self.frames(),
            self.samples,
            self.finite,
            self.samples - self.finite,
            cuts,
            self.states,
            self.differences,
            self.started.elapsed().as_secs_f64()
        );
        let calls = self.calls.iter();
        let counts: Vec<String> = calls
            .map(|((kind, number), count)| format!("{kind} {number}: {count}"))
            .collect();
        println!("{}, calls by number: {}", self.name, counts.join(", "));
        self.differences == 0
    }
}
