//! Restores of damaged records: what is accepted, what is refused, and the voice after either.

use crate::compare_rest::{any_other, restore, save};
use crate::generator::Generator;
use crate::rest_damage::damaged_records;
use crate::spectrum::DONE;
use crate::voice_numbers::RECORDS;
use crate::voice_sides::Functions;
use crate::voice_structs::{Configuration, Voice};
use crate::voice_tally::Tally;
use crate::voice_values::{any_configuration, any_voice};

/// nmcp, nlpf and stage, and how many records of such voices are damaged.
const SETTINGS: [(usize, usize, u64, usize); 3] =
    [(25, 31, 0, 10_000), (5, 2, 3, 20_000), (2, 0, 0, 20_000)];

/// The slot of the voice that is restored into.
const INTO: usize = 0;

/// After so many restores another voice is put there.
const ANOTHER: usize = 16;

pub fn damaged(functions: &Functions, random: &mut Generator) -> bool {
    let mut good = true;
    for (nmcp, nlpf, stage, count) in SETTINGS {
        let mut tally = Tally::new(&format!("damaged records of {nmcp}/{nlpf}/{stage}"));
        let mut into = Voice::idle();
        for number in 0..count {
            if number % ANOTHER == 0 {
                into = any_other(random);
                functions.voices.borrow_mut().set_voice(INTO, &into);
            }
            let configuration = Configuration {
                nmcp,
                nlpf,
                stage,
                ..any_configuration(random)
            };
            let records = damaged_records(&any_voice(configuration, random), random);
            into = restored(functions, &into, &records, &mut tally);
        }
        let met = tally.has_met(&[("save", &[DONE]), ("restore", &[DONE, RECORDS])]);
        good &= tally.finish() && met;
    }
    good
}

/// Restores; what is accepted is saved as the very same bytes. Gives the voice after it.
fn restored(functions: &Functions, into: &Voice, bytes: &[u8], tally: &mut Tally) -> Voice {
    tally.written();
    let (number, after) = restore(functions, INTO, into, bytes, tally);
    if number == DONE {
        let again = save(functions, INTO, &after, bytes.len(), tally);
        assert!(again == bytes, "other records were read than these");
    }
    after
}
