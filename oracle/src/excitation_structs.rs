//! The structs that the excitation's C functions take and give by value.

/// The pulse train: the pitch in samples, 0 where unvoiced, and the pitch that the frame ends at.
#[repr(C)]
#[derive(Clone, Copy)]
pub struct Pulse {
    pub pitch: f64,
    pub counter: f64,
    pub increment: f64,
    pub end_pitch: f64,
}

/// The noise: `next` of the draws, and 64 values, of which `used` are taken.
#[repr(C)]
#[derive(Clone, Copy)]
pub struct Random {
    pub next: u64,
    pub used: usize,
    pub queue: [f64; 64],
}

impl Pulse {
    /// Of a fresh voice.
    pub const FRESH: Self = Self {
        pitch: 0.0,
        counter: 0.0,
        increment: 0.0,
        end_pitch: 0.0,
    };
}

impl Random {
    /// Of a fresh voice.
    pub const FRESH: Self = Self {
        next: 1,
        used: 64,
        queue: [0.0; 64],
    };
}
