//! Our filters with what they keep from frame to frame.

use crate::filter_calls::{Stretch, mglsa, mlsa};

pub struct OurFilter {
    stage: u64,
    /// d11, d12 and d22, of stage 0 alone.
    sixes: [[f64; 6]; 3],
    /// The rows of the filter, one after the other.
    rows: Vec<f64>,
}

impl OurFilter {
    /// A fresh one.
    pub fn new(stage: u64, nmcp: usize) -> Self {
        let rows = if stage == 0 { 6 } else { stage as usize };
        Self {
            stage,
            sixes: [[0.0; 6]; 3],
            rows: vec![0.0; rows * nmcp],
        }
    }

    pub fn turn(&mut self, stretch: Stretch) {
        let [d11, d12, d22] = &mut self.sixes;
        let number = match self.stage {
            0 => mlsa(stretch, [d11, d12, d22, &mut self.rows]),
            stage => mglsa(stretch, stage, &mut self.rows),
        };
        assert_eq!(number, 0);
    }
}
