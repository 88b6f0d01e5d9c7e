//! The excitation's functions of libexports.a, linked in.

use crate::excitation_structs::{Pulse, Random};

/// How many samples were made, and what is after the last of them.
#[repr(C)]
pub struct Stretch {
    pub made: usize,
    pub pulse: Pulse,
    pub random: Random,
}

#[link(name = "exports", kind = "static")]
unsafe extern "C" {
    pub safe fn kipawnore_start(pulse: Pulse, voiced: bool, period: f64, fperiod: u64) -> Pulse;
    pub safe fn kipawnore_end(pulse: Pulse) -> Pulse;
    fn kipawnore_stretch(
        pulse: Pulse,
        random: Random,
        line: *mut f64,
        nline: usize,
        lpf: *const f64,
        nlpf: usize,
        out: *mut f64,
        nout: usize,
    ) -> Stretch;
}

/// Fills `out` with as many samples as can be had, and moves the line on.
pub fn stretch(
    pulse: Pulse,
    random: Random,
    line: &mut [f64],
    lpf: &[f64],
    out: &mut [f64],
) -> Stretch {
    // SAFETY: each pointer goes with the length of its slice.
    unsafe {
        kipawnore_stretch(
            pulse,
            random,
            line.as_mut_ptr(),
            line.len(),
            lpf.as_ptr(),
            lpf.len(),
            out.as_mut_ptr(),
            out.len(),
        )
    }
}
