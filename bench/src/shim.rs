//! Our functions that take and give structs by value, reached by pointers through shim.c and shim_voice.c.

use crate::excitation_structs::{Pulse, Random};
use crate::frames::Frame;

/// What a voice is opened with.
#[repr(C)]
pub struct Configuration {
    pub nmcp: usize,
    pub nlpf: usize,
    pub stage: u64,
    pub log: bool,
    pub rate: u64,
    pub alpha: f64,
    pub beta: f64,
    pub volume: f64,
    pub fperiod: usize,
    pub nodata: f64,
    pub low: f64,
    pub high: f64,
}

/// A voice. Only our library reads what is in it.
#[repr(C)]
pub struct Voice {
    words: [u64; 1319],
}

/// The sizes that shim_voice.c has too.
const _: () = assert!(size_of::<Configuration>() == 96 && size_of::<Voice>() == 10552);

// The shim before what it calls: a linker may take the archives in this order only.
#[link(name = "shim", kind = "static")]
#[link(name = "export_voice", kind = "static")]
#[link(name = "exports", kind = "static")]
unsafe extern "C" {
    safe fn shim_start(pulse: &mut Pulse, voiced: bool, period: f64, fperiod: u64);
    safe fn shim_end(pulse: &mut Pulse);
    fn shim_stretch(
        pulse: &mut Pulse,
        random: &mut Random,
        line: *mut f64,
        nline: usize,
        lpf: *const f64,
        nlpf: usize,
        out: *mut f64,
        nout: usize,
    ) -> usize;
    safe fn shim_open(voice: &mut Voice, configuration: &Configuration) -> u64;
    fn shim_give(
        voice: &mut Voice,
        lf0: f64,
        spectrum: *const f64,
        nspectrum: usize,
        lpf: *const f64,
        nlpf: usize,
    ) -> u64;
    fn shim_draw(
        voice: &mut Voice,
        out: *mut f64,
        nout: usize,
        start: usize,
        made: &mut usize,
    ) -> u64;
    fn shim_whole_frame(
        voice: &mut Voice,
        lf0: f64,
        spectrum: *const f64,
        nspectrum: usize,
        lpf: *const f64,
        nlpf: usize,
        out: *mut f64,
        nout: usize,
        start: usize,
        made: &mut usize,
    ) -> u64;
    fn shim_save(voice: &Voice, out: *mut u8, nout: usize, bytes: &mut usize) -> u64;
    fn shim_restore(voice: &mut Voice, bytes: *const u8, nbytes: usize) -> u64;
}

/// The excitation of a fresh voice.
pub struct Excitation {
    pulse: Pulse,
    random: Random,
    line: Vec<f64>,
}

impl Excitation {
    pub fn new(nlpf: usize) -> Self {
        Self {
            pulse: Pulse::FRESH,
            random: Random::FRESH,
            line: vec![0.0; nlpf],
        }
    }

    /// A frame's excitation. A period of 0 is that of an unvoiced one.
    pub fn frame(&mut self, period: f64, lpf: &[f64], out: &mut [f64]) {
        shim_start(&mut self.pulse, period != 0.0, period, out.len() as u64);
        // SAFETY: each pointer goes with the length of its slice.
        let made = unsafe {
            shim_stretch(
                &mut self.pulse,
                &mut self.random,
                self.line.as_mut_ptr(),
                self.line.len(),
                lpf.as_ptr(),
                lpf.len(),
                out.as_mut_ptr(),
                out.len(),
            )
        };
        assert_eq!(made, out.len());
        shim_end(&mut self.pulse);
    }
}

impl Voice {
    /// All zeros, which no call but restore accepts.
    pub fn idle() -> Self {
        Self { words: [0; 1319] }
    }

    pub fn open(configuration: &Configuration) -> Self {
        let mut voice = Self::idle();
        assert_eq!(shim_open(&mut voice, configuration), 0);
        voice
    }

    pub fn give(&mut self, frame: Frame) {
        let Frame { lf0, spectrum, lpf } = frame;
        let (from, nfrom) = (spectrum.as_ptr(), spectrum.len());
        // SAFETY: each pointer goes with the length of its slice.
        let number = unsafe { shim_give(self, lf0, from, nfrom, lpf.as_ptr(), lpf.len()) };
        assert_eq!(number, 0);
    }

    pub fn draw(&mut self, out: &mut [f64]) {
        let mut made = 0;
        // SAFETY: the pointer goes with the length of its slice.
        let number = unsafe { shim_draw(self, out.as_mut_ptr(), out.len(), 0, &mut made) };
        assert_eq!((number, made), (0, out.len()));
    }

    pub fn whole_frame(&mut self, frame: Frame, out: &mut [f64]) {
        let Frame { lf0, spectrum, lpf } = frame;
        let mut made = 0;
        // SAFETY: each pointer goes with the length of its slice.
        let number = unsafe {
            shim_whole_frame(
                self,
                lf0,
                spectrum.as_ptr(),
                spectrum.len(),
                lpf.as_ptr(),
                lpf.len(),
                out.as_mut_ptr(),
                out.len(),
                0,
                &mut made,
            )
        };
        assert_eq!((number, made), (0, out.len()));
    }

    /// Saves into the front of a buffer, and gives the number of bytes.
    pub fn save(&self, out: &mut [u8]) -> usize {
        let mut bytes = 0;
        // SAFETY: the pointer goes with the length of its slice.
        let number = unsafe { shim_save(self, out.as_mut_ptr(), out.len(), &mut bytes) };
        assert_eq!(number, 0);
        bytes
    }

    pub fn restore(&mut self, bytes: &[u8]) {
        // SAFETY: the pointer goes with the length of its slice.
        let number = unsafe { shim_restore(self, bytes.as_ptr(), bytes.len()) };
        assert_eq!(number, 0);
    }
}
