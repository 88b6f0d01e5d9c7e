//! The pinned vocoder, built with every instruction of the processor at hand (`bench/native_rust`).

use crate::frames::{FRAME, Frame, RATE, Setting, VOLUME};
use std::ffi::c_void;

#[link(name = "native_rust")]
unsafe extern "C" {
    fn native_open(
        nmcp: usize,
        nlpf: usize,
        stage: usize,
        rate: usize,
        alpha: f64,
        beta: f64,
        volume: f64,
        fperiod: usize,
    ) -> *mut c_void;
    fn native_synthesize(
        vocoder: *mut c_void,
        lf0: f64,
        spectrum: *const f64,
        nspectrum: usize,
        lpf: *const f64,
        nlpf: usize,
        samples: *mut f64,
        nsamples: usize,
    );
    fn native_close(vocoder: *mut c_void);
}

/// Open as long as it is there.
pub struct NativeVocoder(*mut c_void);

impl NativeVocoder {
    pub fn open(setting: Setting) -> Self {
        let Setting {
            nmcp,
            nlpf,
            stage,
            alpha,
            beta,
        } = setting;
        let (stage, rate) = (stage as usize, RATE as usize);
        Self(unsafe { native_open(nmcp, nlpf, stage, rate, alpha, beta, VOLUME, FRAME) })
    }

    pub fn synthesize(&mut self, frame: Frame, samples: &mut [f64]) {
        let Frame { lf0, spectrum, lpf } = frame;
        unsafe {
            native_synthesize(
                self.0,
                lf0,
                spectrum.as_ptr(),
                spectrum.len(),
                lpf.as_ptr(),
                lpf.len(),
                samples.as_mut_ptr(),
                samples.len(),
            );
        }
    }
}

impl Drop for NativeVocoder {
    fn drop(&mut self) {
        unsafe { native_close(self.0) }
    }
}
