//! The six calls on a voice. Each pointer that is handed on goes with the length of its slice; that of an empty one is never read. A call gives back
//! the voice after it, which is the one before it where it is refused.

use crate::Refusal;
use crate::calls;
use crate::structs::{Configuration, Drawn, Voice};

impl Voice {
    /// OPEN: a fresh voice, where every limit holds.
    pub fn open(configuration: Configuration) -> Result<Self, Refusal> {
        let answered = calls::kipawnore_open(configuration);
        Refusal::unless_done(answered.number).map(|()| answered.voice)
    }

    /// GIVE: a frame of nmcp spectrum entries and nlpf taps. After it fperiod samples are left to draw.
    pub fn give(&mut self, lf0: f64, spectrum: &[f64], lpf: &[f64]) -> Result<(), Refusal> {
        let (entries, taps) = (spectrum.as_ptr(), lpf.as_ptr());
        // SAFETY: the pointers are those of the slices.
        let answered = unsafe {
            calls::kipawnore_give(self.clone(), lf0, entries, spectrum.len(), taps, lpf.len())
        };
        *self = answered.voice;
        Refusal::unless_done(answered.number)
    }

    /// DRAW: as many samples as are left and as `out` has room for from `start` on, and their count. Nothing else of `out` changes; a start past its
    /// end leaves no room.
    pub fn draw(&mut self, out: &mut [f64], start: usize) -> Result<usize, Refusal> {
        // SAFETY: the pointer is that of the slice.
        let drawn =
            unsafe { calls::kipawnore_draw(self.clone(), out.as_mut_ptr(), out.len(), start) };
        self.after(drawn)
    }

    /// WHOLE FRAME: give, then draw all of the frame into `out` from `start` on.
    pub fn whole_frame(
        &mut self,
        lf0: f64,
        spectrum: &[f64],
        lpf: &[f64],
        out: &mut [f64],
        start: usize,
    ) -> Result<usize, Refusal> {
        // SAFETY: the pointers are those of the slices, and `out` overlaps neither of the others.
        let drawn = unsafe {
            calls::kipawnore_whole_frame(
                self.clone(),
                lf0,
                spectrum.as_ptr(),
                spectrum.len(),
                lpf.as_ptr(),
                lpf.len(),
                out.as_mut_ptr(),
                out.len(),
                start,
            )
        };
        self.after(drawn)
    }

    /// SAVE: the voice as records from the front of `out`, and how many bytes they are.
    pub fn save(&self, out: &mut [u8]) -> Result<usize, Refusal> {
        // SAFETY: the pointer is that of the slice.
        let saved = unsafe { calls::kipawnore_save(self.clone(), out.as_mut_ptr(), out.len()) };
        Refusal::unless_done(saved.number).map(|()| saved.bytes)
    }

    /// RESTORE: the voice in the records takes the place of this one, be it idle or busy, with the configuration in the records.
    pub fn restore(&mut self, records: &[u8]) -> Result<(), Refusal> {
        // SAFETY: the pointer is that of the slice.
        let answered =
            unsafe { calls::kipawnore_restore(self.clone(), records.as_ptr(), records.len()) };
        *self = answered.voice;
        Refusal::unless_done(answered.number)
    }

    /// What it was opened with.
    pub fn configuration(&self) -> &Configuration {
        &self.configuration
    }

    /// How many samples it has made.
    pub fn meter(&self) -> u64 {
        self.meter
    }

    /// How many samples of the last frame are left to draw.
    pub fn left(&self) -> usize {
        self.left
    }

    /// Goes on as the voice after a draw, whose count of samples it gives.
    fn after(&mut self, drawn: Drawn) -> Result<usize, Refusal> {
        *self = drawn.voice;
        Refusal::unless_done(drawn.number).map(|()| drawn.made)
    }
}
