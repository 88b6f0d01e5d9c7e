//! The voices of libexport_voice.a, linked in: kept by their slot, as the bridge keeps its own.

use crate::frames::Frame;
use crate::ours::SLOTS;
use crate::rest::{Cut, CutOutcome, Saved};
use crate::rest_calls;
use crate::spectrum::DONE;
use crate::voice::{Call, Kind, Outcome};
use crate::voice_structs::{Configuration, Voice};

#[repr(C)]
pub struct Answered {
    pub number: u64,
    pub voice: Voice,
}

#[repr(C)]
struct Drawn {
    number: u64,
    made: usize,
    voice: Voice,
}

#[link(name = "export_voice", kind = "static")]
unsafe extern "C" {
    safe fn kipawnore_open(configuration: Configuration) -> Answered;
    fn kipawnore_give(
        voice: Voice,
        lf0: f64,
        spectrum: *const f64,
        nspectrum: usize,
        lpf: *const f64,
        nlpf: usize,
    ) -> Answered;
    fn kipawnore_draw(voice: Voice, out: *mut f64, nout: usize, start: usize) -> Drawn;
    fn kipawnore_whole_frame(
        voice: Voice,
        lf0: f64,
        spectrum: *const f64,
        nspectrum: usize,
        lpf: *const f64,
        nlpf: usize,
        out: *mut f64,
        nout: usize,
        start: usize,
    ) -> Drawn;
}

pub struct Voices {
    slots: [Voice; SLOTS],
}

impl Voices {
    pub fn idle() -> Self {
        Self {
            slots: [Voice::idle(); SLOTS],
        }
    }

    pub fn open(&mut self, slot: usize, configuration: Configuration) -> u64 {
        let opened = kipawnore_open(configuration);
        self.slots[slot] = opened.voice;
        opened.number
    }

    pub fn read(&self, slot: usize) -> Voice {
        self.slots[slot]
    }

    pub fn write(&mut self, slot: usize, words: &[u64]) {
        self.slots[slot] = Voice::read(&mut words.iter().copied()).expect("words enough");
    }

    /// Makes the call on a copy of its buffer.
    pub fn call(&mut self, slot: usize, call: &Call) -> Outcome {
        let mut buffer = call.buffer.clone();
        let drawn = drawn(self.slots[slot], call, &mut buffer);
        self.slots[slot] = drawn.voice;
        Outcome {
            number: drawn.number,
            made: drawn.made,
            buffer,
        }
    }

    pub fn save(&self, slot: usize, buffer: &[u8]) -> Saved {
        rest_calls::save(&self.slots[slot], buffer)
    }

    pub fn restore(&mut self, slot: usize, bytes: &[u8]) -> u64 {
        let restored = rest_calls::restore(&self.slots[slot], bytes);
        self.slots[slot] = restored.voice;
        restored.number
    }

    pub fn cut(&mut self, slot: usize, cut: &Cut) -> CutOutcome {
        let drawn = self.call(slot, &cut.draw());
        let saved = self.save(slot, &cut.buffer());
        let restored = (saved.number == DONE).then(|| {
            let into = &self.slots[cut.into];
            let restored = rest_calls::restore(into, &saved.buffer[..saved.bytes]);
            self.slots[slot] = restored.voice;
            restored.number
        });
        CutOutcome {
            drawn,
            saved,
            restored,
        }
    }
}

fn drawn(voice: Voice, call: &Call, buffer: &mut [f64]) -> Drawn {
    let Frame { lf0, spectrum, lpf } = &call.frame;
    let (out, nout, start) = (buffer.as_mut_ptr(), buffer.len(), call.start);
    let (x, nx) = (spectrum.as_ptr(), spectrum.len());
    let (y, ny) = (lpf.as_ptr(), lpf.len());
    // SAFETY: each pointer goes with the length of its slice.
    unsafe {
        match call.kind {
            Kind::Give => {
                let given = kipawnore_give(voice, *lf0, x, nx, y, ny);
                Drawn {
                    number: given.number,
                    made: 0,
                    voice: given.voice,
                }
            }
            Kind::Draw => kipawnore_draw(voice, out, nout, start),
            Kind::WholeFrame => kipawnore_whole_frame(voice, *lf0, x, nx, y, ny, out, nout, start),
        }
    }
}
