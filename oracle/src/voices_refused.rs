//! The voices of the fixed list that refuse.

use crate::frames::Frame;
use crate::generator::Generator;
use crate::voice_numbers::{MOST_ENTRY, MOST_METER};
use crate::voice_structs::Configuration;
use crate::voices::{Case, Step};
use crate::voices_cases::{draw, frame, give, opened, whole};
use pinned::constants::NODATA;

/// What is wrong with a frame of four entries and two taps; of several faults the first in document 01's table counts, and
/// the last is none.
const FAULTS: [fn(&mut Frame); 12] = [
    |frame| frame.spectrum.truncate(3),
    |frame| frame.spectrum.resize(80, 0.5),
    |frame| frame.lpf.clear(),
    |frame| frame.lpf.resize(3, f64::NAN),
    |frame| frame.lf0 = f64::NEG_INFINITY,
    |frame| frame.spectrum[3] = f64::NAN,
    |frame| frame.lpf[1] = f64::INFINITY,
    |frame| frame.spectrum[2] = MOST_ENTRY.next_up(),
    |frame| frame.spectrum[0] = -MOST_ENTRY.next_up(),
    |frame| frame.spectrum[1..4].fill(1.0),
    |frame| frame.spectrum[0] = -1.0,
    |frame| frame.spectrum[3] = MOST_ENTRY,
];

pub fn all(random: &mut Generator) -> [Case; 3] {
    [
        not_opened(random),
        refused(random),
        refused_at_first(random),
    ]
}

/// A limit is broken: the voice is idle, and so refuses.
fn not_opened(random: &mut Generator) -> Case {
    let good = opened((0, 2, 0, false, 0.0, 2));
    let [first, second] = [5.0, 6.0].map(|lf0| frame(&good, lf0, random));
    Case {
        configuration: Configuration { nmcp: 1, ..good },
        steps: vec![give(first), draw(2, 0), whole(second, 3, 1)],
    }
}

/// Every refusal of a voice that is open: before its first frame, within it, and for faults after it. Then a frame.
fn refused(random: &mut Generator) -> Case {
    let configuration = opened((2, 4, 2, false, 0.3, 3));
    let first = frame(&configuration, 9.0, random);
    let good = || first.clone();
    let mut steps = vec![draw(2, 0), draw(0, 0)];
    steps.extend([whole(good(), 3, 1), whole(good(), 2, 7)]);
    steps.extend([give(good()), draw(1, 0)]);
    steps.extend([give(good()), whole(good(), 3, 0), whole(good(), 2, 0)]);
    steps.push(draw(4, 0));
    for (number, fault) in FAULTS.into_iter().enumerate() {
        let mut frame = good();
        fault(&mut frame);
        steps.push(match number % 3 {
            2 => whole(frame, 3, 0),
            _ => give(frame),
        });
    }
    steps.push(whole(frame(&configuration, 8.0, random), 3, 0));
    Case {
        configuration,
        steps,
    }
}

/// The first frame is refused, so that the next one is the first.
fn refused_at_first(random: &mut Generator) -> Case {
    let configuration = opened((1, 5, 0, true, 0.2, 4));
    let good = frame(&configuration, NODATA, random);
    let mut equal = good.clone();
    equal.spectrum[1..4].fill(1.0);
    Case {
        configuration,
        steps: vec![give(equal), whole(good, 4, 0)],
    }
}

/// The meter has no room for a frame, and a fault of the frame counts before that; room for one; a meter at which no frame
/// ends; and one far from its end.
pub fn meter_at_its_end(random: &mut Generator) -> Case {
    let configuration = opened((0, 3, 1, false, 0.0, 5));
    let lf0s = [NODATA, 8.5, 9.0];
    let [first, good, last] = lf0s.map(|lf0| frame(&configuration, lf0, random));
    let good = || good.clone();
    let mut not_finite = good();
    not_finite.lf0 = f64::INFINITY;
    Case {
        configuration,
        steps: vec![
            whole(first, 5, 0),
            Step::Meter(MOST_METER - 2),
            give(good()),
            whole(good(), 5, 0),
            give(not_finite),
            Step::Meter(MOST_METER - 7),
            whole(good(), 5, 0),
            give(good()),
            Step::Meter(MOST_METER),
            give(good()),
            Step::Meter((1 << 62) - 4),
            whole(last, 5, 0),
        ],
    }
}
