//! Streams that are cut: between two draws ours is saved and restored into another voice, with which it goes on. The Rust's is
//! not cut.

use crate::compare_rest::{any_less, any_other};
use crate::generator::Generator;
use crate::ours::SLOTS;
use crate::rest::Cut;
use crate::rest_records;
use crate::spectrum::DONE;
use crate::voice::Call;
use crate::voice_frames::frames;
use crate::voice_numbers::{NO_ROOM, NOTHING_LEFT};
use crate::voice_sides::{Functions, Sides};
use crate::voice_structs::Configuration;
use crate::voice_tally::Tally;
use crate::voice_values::{any_configuration, configurations};

/// The slot of the stream. The others hold the voices that are restored into.
const STREAM: usize = 0;

/// Of the configurations one in so many, of so many frames, and the most samples of a draw.
const ONE_IN: usize = 4;
const FRAMES: usize = 4;
const MOST_ROOM: u64 = 24;

/// So many cuts of small voices, of so many frames, one sample or a few at a draw.
const ENOUGH: u64 = 1_000_000;
const SMALL_FRAMES: usize = 8;
const SMALL_ROOM: u64 = 3;

/// Voices across every limit.
pub fn streams(functions: &Functions, random: &mut Generator) -> bool {
    let mut tally = Tally::new("cut streams");
    for configuration in configurations(random).into_iter().step_by(ONE_IN) {
        let configuration = Configuration {
            fperiod: 1 + random.below(100) as usize,
            ..configuration
        };
        let room = 1 + random.below(MOST_ROOM);
        stream(functions, configuration, FRAMES, room, &mut tally, random);
    }
    finish(tally)
}

/// Small voices, cut after every sample or two.
pub fn many_cuts(functions: &Functions, random: &mut Generator) -> bool {
    let mut tally = Tally::new("many cuts");
    while tally.cuts() < ENOUGH {
        let (small, room) = (small(random), 1 + random.below(SMALL_ROOM));
        stream(functions, small, SMALL_FRAMES, room, &mut tally, random);
    }
    finish(tally)
}

fn finish(tally: Tally) -> bool {
    let met = tally.has_met(&[
        ("draw", &[DONE, NOTHING_LEFT]),
        ("save", &[DONE, NO_ROOM]),
        ("restore", &[DONE]),
    ]);
    tally.finish() && met
}

/// Of few records, at stage 0 and at others.
fn small(random: &mut Generator) -> Configuration {
    Configuration {
        nmcp: 2 + random.below(2) as usize,
        nlpf: random.below(3) as usize,
        stage: random.below(2) * random.below(4),
        beta: 0.0,
        fperiod: 40 + random.below(60) as usize,
        ..any_configuration(random)
    }
}

/// A voice's frames, each drawn to its end, and cut after every draw. Of four voices three are tame.
fn stream(
    functions: &Functions,
    configuration: Configuration,
    count: usize,
    room: u64,
    tally: &mut Tally,
    random: &mut Generator,
) {
    let mut sides = Sides::open(functions, STREAM, configuration, tally);
    let tame = random.below(4) > 0;
    for slot in (0..SLOTS).filter(|slot| *slot != STREAM) {
        let other = any_other(random);
        functions.voices.borrow_mut().set_voice(slot, &other);
    }
    for frame in frames(count, &configuration, tame, random) {
        sides.cut(
            tally,
            &cuts(sides.rusts.left(), &configuration, room, random),
        );
        sides.call(tally, &Call::give(frame));
        sides.cut(
            tally,
            &cuts(sides.rusts.left(), &configuration, room, random),
        );
        sides.compare(tally, "voice after cuts");
    }
}

/// So many that nothing is left, and now and then one more. The most of them save into just enough room.
fn cuts(left: usize, configuration: &Configuration, room: u64, random: &mut Generator) -> Vec<Cut> {
    let size = rest_records::size(configuration);
    let mut cuts = Vec::new();
    let mut drawn = 0;
    while drawn < left || random.below(4) == 0 {
        cuts.push(Cut {
            room: 1 + random.below(room) as usize,
            length: match random.below(16) {
                0 => any_less(size, random),
                1..4 => size + 1 + random.below(40) as usize,
                _ => size,
            },
            into: random.below(SLOTS as u64) as usize,
        });
        drawn += cuts[cuts.len() - 1].room;
    }
    cuts
}
