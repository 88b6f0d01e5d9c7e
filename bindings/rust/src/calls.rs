//! The calls as the archives have them. A pointer with a length is that of a slice: the callee reads or writes only there, and keeps nothing.

use crate::structs::{Answered, Configuration, Drawn, Heard, Saved, Voice, Written};

#[link(name = "export_voice", kind = "static")]
unsafe extern "C" {
    pub safe fn kipawnore_open(configuration: Configuration) -> Answered;
    pub fn kipawnore_give(
        voice: Voice,
        lf0: f64,
        spectrum: *const f64,
        nspectrum: usize,
        lpf: *const f64,
        nlpf: usize,
    ) -> Answered;
    pub fn kipawnore_draw(voice: Voice, out: *mut f64, nout: usize, start: usize) -> Drawn;
    pub fn kipawnore_whole_frame(
        voice: Voice,
        lf0: f64,
        spectrum: *const f64,
        nspectrum: usize,
        lpf: *const f64,
        nlpf: usize,
        out: *mut f64,
        nout: usize,
        start: usize,
    ) -> Drawn;
    pub fn kipawnore_save(voice: Voice, out: *mut u8, nout: usize) -> Saved;
    pub fn kipawnore_restore(voice: Voice, bytes: *const u8, nbytes: usize) -> Answered;
}

#[link(name = "export_sound", kind = "static")]
unsafe extern "C" {
    pub fn kipawnore_write_sound(
        bits: u64,
        rate: u64,
        samples: *const f64,
        nsamples: usize,
        out: *mut u8,
        nout: usize,
    ) -> Written;
    pub fn kipawnore_sound_header(
        bits: u64,
        rate: u64,
        count: usize,
        out: *mut u8,
        nout: usize,
    ) -> Written;
    pub fn kipawnore_sound_part(
        bits: u64,
        samples: *const f64,
        nsamples: usize,
        out: *mut u8,
        nout: usize,
    ) -> Written;
    pub fn kipawnore_sound_pad(bits: u64, count: usize, out: *mut u8, nout: usize) -> Written;
    pub fn kipawnore_read_sound(
        bytes: *const u8,
        nbytes: usize,
        out: *mut i32,
        nout: usize,
    ) -> Heard;
}
