//! The voices of the fixed list, and their calls.

use crate::excitation_values::around_zero;
use crate::frames::{Frame, FrameSet, announcement};
use crate::generated_frames::pairs;
use crate::generator::Generator;
use crate::spectrum_values::decaying;
use crate::voice::Call;
use crate::voice_structs::Configuration;
use crate::voices::{BEFORE, Case, Step};
use crate::voices_refused;
use pinned::constants::{MAX_LF0, MIN_LF0, NODATA};
use std::path::Path;

/// The list never changes by itself: its random values come from this seed.
const LIST_SEED: u64 = 1;

/// Taken in turn, so that each goes with each.
const ALPHAS: [f64; 5] = [0.42, 0.0, -0.3, 0.55, -0.0];
const VOLUMES: [f64; 4] = [1.0, 0.5, -2.0, 1e-300];
const RATES: [u64; 3] = [16_000, 192_000, 1];

/// Stage, nmcp, nlpf, log gain, beta, samples of a frame.
type Settings = (u64, usize, usize, bool, f64, usize);

const SPOKEN: [Settings; 20] = [
    (0, 2, 0, false, 0.0, 6),
    (0, 7, 3, false, 0.4, 7),
    (1, 3, 2, false, 0.0, 5),
    (1, 4, 0, true, 0.3, 8),
    (2, 5, 0, true, 0.0, 6),
    (2, 9, 1, false, 1.0, 4),
    (3, 6, 4, true, 1e-3, 7),
    (3, 2, 0, false, 0.0, 5),
    (4, 8, 0, false, 0.2, 6),
    (4, 3, 1, true, 0.0, 3),
    (5, 4, 5, true, 0.0, 6),
    (5, 7, 0, false, 0.5, 5),
    (6, 2, 2, false, 0.0, 7),
    (6, 6, 0, true, 0.4, 4),
    (7, 5, 0, false, 0.1, 6),
    (7, 3, 3, true, 0.0, 5),
    (8, 4, 1, false, 0.0, 8),
    (8, 6, 0, true, 0.7, 3),
    (0, 4, 1, true, 1e-3, 1),
    (0, 5, 0, true, 0.0, 2),
];

pub fn all(folder: &Path) -> Result<Vec<Case>, String> {
    let random = &mut Generator::new(LIST_SEED);
    let mut cases: Vec<Case> = SPOKEN.map(|settings| spoken(settings, random)).into();
    for (number, case) in cases.iter_mut().enumerate() {
        let configuration = &mut case.configuration;
        (configuration.alpha, configuration.volume) = (ALPHAS[number % 5], VOLUMES[number % 4]);
        configuration.rate = RATES[number % 3];
    }
    cases.extend(voices_refused::all(random));
    cases.push(other_ends(random));
    cases.push(real(announcement(folder)?.swap_remove(0))?);
    cases.push(voices_refused::meter_at_its_end(random));
    Ok(cases)
}

pub fn opened((stage, nmcp, nlpf, log_gain, beta, fperiod): Settings) -> Configuration {
    Configuration {
        nmcp,
        nlpf,
        stage,
        log_gain,
        rate: RATES[0],
        alpha: ALPHAS[0],
        beta,
        volume: VOLUMES[0],
        fperiod,
        nodata: NODATA,
        low: MIN_LF0,
        high: MAX_LF0,
    }
}

pub fn frame(configuration: &Configuration, lf0: f64, random: &mut Generator) -> Frame {
    let &Configuration {
        nmcp, nlpf, stage, ..
    } = configuration;
    Frame {
        lf0,
        spectrum: if stage == 0 {
            decaying(nmcp, random)
        } else {
            pairs(nmcp, random)
        },
        lpf: (0..nlpf).map(|_| around_zero(random)).collect(),
    }
}

pub fn give(frame: Frame) -> Step {
    Step::Call(Call::give(frame))
}

pub fn draw(room: usize, start: usize) -> Step {
    Step::Call(Call::draw(vec![BEFORE; room], start))
}

pub fn whole(frame: Frame, room: usize, start: usize) -> Step {
    Step::Call(Call::whole_frame(frame, vec![BEFORE; room], start))
}

/// Three frames, the first voiced and cut, the second voiced or not and whole, the third voiced and not drawn to its end.
fn spoken(settings: Settings, random: &mut Generator) -> Case {
    let configuration = opened(settings);
    let fperiod = configuration.fperiod;
    let second = if random.below(2) == 0 { NODATA } else { 8.5 };
    let lf0s = [9.0 + random.unit(), second, 9.5];
    let [first, second, third] = lf0s.map(|lf0| frame(&configuration, lf0, random));
    Case {
        configuration,
        steps: vec![
            give(first),
            draw(fperiod / 2, 0),
            draw(2, 2),
            draw(fperiod + 2, 1),
            whole(second, fperiod + 2, 1),
            give(third),
            draw(fperiod - 1, 0),
        ],
    }
}

/// Ends and a no-data number of its own: log F0 below, above, no data, and the Rust's no-data number.
fn other_ends(random: &mut Generator) -> Case {
    let configuration = Configuration {
        nodata: 9.25,
        low: 9.0,
        high: 9.5,
        ..opened((0, 3, 0, false, 0.0, 4))
    };
    let lf0s = [-3.0, 300.0, 9.25, NODATA];
    let frames = lf0s.map(|lf0| frame(&configuration, lf0, random));
    Case {
        configuration,
        steps: frames.map(|frame| whole(frame, 4, 0)).into(),
    }
}

/// The announcement's first two frames of which both are voiced.
fn real(set: FrameSet) -> Result<Case, String> {
    let settings = &set.settings;
    let both = |frames: &&[Frame]| frames.iter().all(|frame| frame.lf0 != NODATA);
    let frames = set
        .frames
        .windows(2)
        .find(both)
        .ok_or("no two voiced frames")?;
    let configuration = Configuration {
        rate: settings.rate as u64,
        alpha: settings.alpha,
        ..opened((
            0,
            settings.nmcp,
            settings.nlpf,
            settings.log_gain,
            settings.beta,
            settings.fperiod,
        ))
    };
    let fperiod = configuration.fperiod;
    Ok(Case {
        configuration,
        steps: vec![
            whole(frames[0].clone(), fperiod, 0),
            give(frames[1].clone()),
            draw(fperiod / 2, 0),
            draw(fperiod, 0),
        ],
    })
}
