//! What of a save or a restore of ours differs.

use crate::rest::{CutOutcome, NOT_ASKED, Saved};
use crate::spectrum::DONE;
use crate::voice_structs::Configuration;
use crate::voice_tally::Tally;

impl Tally {
    /// A save of ours beside what is right: the number, the bytes reported, the whole buffer.
    pub fn saved(&mut self, configuration: &Configuration, own: &Saved, right: &Saved) {
        self.count("save", right.number);
        if own != right {
            self.words("save", configuration, own.words(), right.words(), place);
        }
    }

    pub fn restored(&mut self, configuration: &Configuration, own: u64, right: u64) {
        self.count("restore", right);
        self.words("restore", configuration, [own], [right], |_| {
            "number".to_string()
        });
    }

    /// What comes after a cut's draw of so many samples. Where the save is done, the restore must be.
    pub fn cut_after(
        &mut self,
        made: usize,
        configuration: &Configuration,
        own: &CutOutcome,
        right: &Saved,
    ) {
        self.saved(configuration, &own.saved, right);
        if right.number == DONE {
            self.restored(configuration, own.restored.unwrap_or(NOT_ASKED), DONE);
            if made > 0 {
                self.cut();
            }
        }
    }
}

/// The name of a place in the words of a save.
fn place(place: usize) -> String {
    match place {
        0 => "number".to_string(),
        1 => "bytes reported".to_string(),
        _ => format!("byte {} of record {}", (place - 2) % 16, (place - 2) / 16),
    }
}
