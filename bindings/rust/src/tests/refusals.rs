//! Every number that a caller can reach, and that a refused call leaves the voice and the buffers as they were. 11, the dry noise, has no test: of all
//! 2^31 states of the noise none comes near the 4,096 rejected tries that it takes.

use super::{JOBS, busy_voice, job, job::Frame};
use crate::{Configuration, MOST_BYTES, Refusal, Voice};

const ROOM: usize = 256;
const FILL: f64 = -7.0;
const FILL_BYTE: u8 = 0xA5;

/// The voices and the frame that the tests of a job start from.
struct Case {
    busy: Voice,
    /// After the rest of the busy one's frame.
    between: Voice,
    good: Frame,
}

fn cases() -> impl Iterator<Item = Case> {
    (0..JOBS).map(|which| {
        let mut job = job(which);
        let busy = busy_voice(&job);
        let mut between = busy.clone();
        assert_eq!(between.draw(&mut [0.0; ROOM], 0), Ok(busy.left()));
        assert_eq!(between.left(), 0);
        Case {
            busy,
            between,
            good: job.frames.swap_remove(0),
        }
    })
}

/// The case of stage 2 with postfilter.
fn pairs() -> Case {
    let with_pairs =
        |case: &Case| case.busy.configuration.stage > 0 && case.busy.configuration.beta > 0.0;
    cases()
        .find(with_pairs)
        .expect("a job of pairs with postfilter")
}

impl Frame {
    fn same(&self) -> Self {
        Self {
            lf0: self.lf0,
            spectrum: self.spectrum.clone(),
            lpf: self.lpf.clone(),
        }
    }
}

fn refuse_give(voice: &Voice, frame: &Frame, why: Refusal) {
    let mut after = voice.clone();
    assert_eq!(after.give(frame.lf0, &frame.spectrum, &frame.lpf), Err(why));
    assert_eq!(after, *voice);
}

fn refuse_draw(voice: &Voice, why: Refusal) {
    let (mut after, mut out) = (voice.clone(), [FILL; ROOM]);
    assert_eq!(after.draw(&mut out, 0), Err(why));
    assert_eq!((after, out), (voice.clone(), [FILL; ROOM]));
}

fn refuse_whole_frame(voice: &Voice, frame: &Frame, room: usize, start: usize, why: Refusal) {
    let (mut after, mut out) = (voice.clone(), [FILL; ROOM]);
    let made = after.whole_frame(
        frame.lf0,
        &frame.spectrum,
        &frame.lpf,
        &mut out[..room],
        start,
    );
    assert_eq!(made, Err(why));
    assert_eq!((after, out), (voice.clone(), [FILL; ROOM]));
}

/// What give refuses, whole frame refuses alike.
fn refuse_frame(voice: &Voice, frame: &Frame, why: Refusal) {
    refuse_give(voice, frame, why);
    refuse_whole_frame(voice, frame, ROOM, 0, why);
}

fn refuse_save(voice: &Voice, room: usize, why: Refusal) {
    let mut out = [FILL_BYTE; MOST_BYTES];
    assert_eq!(voice.save(&mut out[..room]), Err(why));
    assert_eq!(out, [FILL_BYTE; MOST_BYTES]);
}

fn refuse_restore(voice: &Voice, records: &[u8]) {
    let mut after = voice.clone();
    assert_eq!(after.restore(records), Err(Refusal::RECORDS_WRONG));
    assert_eq!(after, *voice);
}

fn refuse_open(good: &Configuration, spoil: impl Fn(&mut Configuration)) {
    let mut configuration = *good;
    spoil(&mut configuration);
    assert_eq!(
        Voice::open(configuration),
        Err(Refusal::LIMIT_BROKEN),
        "{configuration:?}"
    );
}

fn records_of(voice: &Voice) -> Vec<u8> {
    let mut records = vec![0; MOST_BYTES];
    let length = voice.save(&mut records).expect("a voice that can be saved");
    records.truncate(length);
    records
}

/// The records with another value in a slot.
fn with_slot(records: &[u8], slot: usize, value: u64) -> Vec<u8> {
    let mut records = records.to_vec();
    records[16 * slot + 8..16 * slot + 16].copy_from_slice(&value.to_le_bytes());
    records
}

#[test]
fn limit_broken() {
    for case in cases() {
        let good = &case.busy.configuration;
        for (nmcp, nlpf, stage) in [
            (1, 0, 0),
            (65, 0, 0),
            (2, 65, 0),
            (2, usize::MAX, 0),
            (2, 0, 9),
        ] {
            refuse_open(good, |c| (c.nmcp, c.nlpf, c.stage) = (nmcp, nlpf, stage));
        }
        for rate in [0, 192_001] {
            refuse_open(good, |c| c.rate = rate);
        }
        for fperiod in [0, 4801] {
            refuse_open(good, |c| c.fperiod = fperiod);
        }
        for wrong in [-21.0, 21.0, f64::NAN, f64::INFINITY, f64::NEG_INFINITY] {
            refuse_open(good, |c| c.alpha = wrong);
            refuse_open(good, |c| c.beta = wrong);
            refuse_open(good, |c| c.low = wrong);
            refuse_open(good, |c| c.high = wrong);
        }
        for wrong in [f64::NAN, f64::INFINITY, f64::NEG_INFINITY] {
            refuse_open(good, |c| c.volume = wrong);
            refuse_open(good, |c| c.nodata = wrong);
        }
        refuse_open(good, |c| c.alpha = 1.0);
        refuse_open(good, |c| c.beta = 1.0_f64.next_up());
        refuse_open(good, |c| c.low = c.high.next_up());
    }
}

/// The voice of zeros, and voices that break a rule, as only this crate can make them.
#[test]
fn voice_idle() {
    let spoils: [fn(&mut Voice); 6] = [
        |voice| *voice = Voice::idle(),
        |voice| voice.random.used = 65,
        |voice| voice.meter += 1,
        |voice| voice.left = usize::MAX,
        |voice| voice.configuration.nmcp = usize::MAX,
        |voice| voice.first = true,
    ];
    for case in cases() {
        for spoil in spoils {
            let mut idle = case.busy.clone();
            spoil(&mut idle);
            refuse_frame(&idle, &case.good, Refusal::VOICE_IDLE);
            refuse_whole_frame(&idle, &case.good, 0, 0, Refusal::VOICE_IDLE);
            refuse_draw(&idle, Refusal::VOICE_IDLE);
            refuse_save(&idle, MOST_BYTES, Refusal::VOICE_IDLE);
        }
    }
}

/// With samples left too: 14 comes before 3.
#[test]
fn buffer_short() {
    for Case {
        busy,
        between,
        good,
    } in cases()
    {
        let fperiod = between.configuration().fperiod;
        refuse_whole_frame(&between, &good, fperiod - 1, 0, Refusal::BUFFER_SHORT);
        refuse_whole_frame(
            &between,
            &good,
            ROOM,
            ROOM - fperiod + 1,
            Refusal::BUFFER_SHORT,
        );
        refuse_whole_frame(&between, &good, ROOM, usize::MAX, Refusal::BUFFER_SHORT);
        refuse_whole_frame(&busy, &good, 0, 0, Refusal::BUFFER_SHORT);
    }
}

#[test]
fn samples_left_and_nothing_left() {
    for Case {
        busy,
        between,
        mut good,
    } in cases()
    {
        refuse_draw(&between, Refusal::NOTHING_LEFT);
        refuse_frame(&busy, &good, Refusal::SAMPLES_LEFT);
        good.spectrum.clear();
        refuse_frame(&busy, &good, Refusal::SAMPLES_LEFT);
    }
}

/// No refusals: with samples left and no room nothing is drawn.
#[test]
fn no_room_draws_nothing() {
    for Case { busy, .. } in cases() {
        let (mut after, mut out) = (busy.clone(), [FILL]);
        assert_eq!(after.draw(&mut out, usize::MAX), Ok(0));
        assert_eq!(after.draw(&mut [], 0), Ok(0));
        assert_eq!((after, out), (busy, [FILL]));
    }
}

/// Each frame has the faults of the numbers after it too.
#[test]
fn wrong_lengths_and_numbers_that_are_not_finite() {
    for Case { between, good, .. } in cases() {
        let mut frame = good.same();
        frame.lf0 = f64::NAN;
        refuse_frame(&between, &frame, Refusal::NOT_FINITE);
        frame.lpf.push(0.0);
        refuse_frame(&between, &frame, Refusal::TAP_COUNT);
        frame.lpf.clear();
        refuse_frame(&between, &frame, Refusal::TAP_COUNT);
        frame.spectrum.push(0.0);
        refuse_frame(&between, &frame, Refusal::SPECTRUM_LENGTH);
        frame.spectrum.truncate(good.spectrum.len() - 1);
        refuse_frame(&between, &frame, Refusal::SPECTRUM_LENGTH);
        frame.spectrum.clear();
        refuse_frame(&between, &frame, Refusal::SPECTRUM_LENGTH);
        let mut frame = good.same();
        *frame.spectrum.last_mut().expect("an entry") = f64::NEG_INFINITY;
        refuse_frame(&between, &frame, Refusal::NOT_FINITE);
        let mut frame = good.same();
        *frame.lpf.last_mut().expect("a tap") = f64::NAN;
        refuse_frame(&between, &frame, Refusal::NOT_FINITE);
    }
}

/// The voice with another meter, by way of its records.
fn with_meter(voice: &Voice, meter: u64) -> Voice {
    let mut after = Voice::idle();
    assert_eq!(
        after.restore(&with_slot(&records_of(voice), 12, meter)),
        Ok(())
    );
    assert_eq!(after.meter(), meter);
    after
}

/// Entries that are equal lead to a NaN in the postfilter; with a full meter, 8 comes before that, and an entry beyond 2^20 before both.
#[test]
fn entry_beyond_meter_full_and_argument_outside() {
    let Case { between, good, .. } = pairs();
    let fperiod = between.configuration().fperiod as u64;
    let most = i64::MAX as u64 / fperiod * fperiod;
    let full = with_meter(&between, most);
    let mut frame = good.same();
    (frame.spectrum[2], frame.spectrum[3]) = (frame.spectrum[1], frame.spectrum[1]);
    refuse_frame(&between, &frame, Refusal::ARGUMENT_OUTSIDE);
    refuse_frame(&full, &frame, Refusal::METER_FULL);
    refuse_frame(&full, &good, Refusal::METER_FULL);
    let mut nearly = with_meter(&between, most - fperiod);
    assert_eq!(nearly.give(good.lf0, &good.spectrum, &good.lpf), Ok(()));
    frame.spectrum[1] = -1_048_576.0_f64.next_up();
    refuse_frame(&full, &frame, Refusal::ENTRY_BEYOND);
    frame.lpf[0] = f64::INFINITY;
    refuse_frame(&full, &frame, Refusal::NOT_FINITE);
}

#[test]
fn records_longer() {
    for Case { busy, .. } in cases() {
        refuse_save(&busy, records_of(&busy).len() - 1, Refusal::RECORDS_LONGER);
        refuse_save(&busy, 0, Refusal::RECORDS_LONGER);
    }
}

/// A stage of 9, a flag of 2, alpha 1, a sum that is no multiple of fperiod, a NaN of another form; a wrong number of a slot; wrong lengths.
#[test]
fn records_wrong() {
    let wrong = [
        (2, 9),
        (3, 2),
        (5, 1.0_f64.to_bits()),
        (13, 1),
        (15, f64::NAN.to_bits() | 1),
    ];
    for Case { busy, .. } in cases() {
        let records = records_of(&busy);
        for (slot, value) in wrong {
            let damaged = with_slot(&records, slot, value);
            refuse_restore(&busy, &damaged);
            refuse_restore(&Voice::idle(), &damaged);
        }
        let mut damaged = records.clone();
        damaged[0] = 1;
        refuse_restore(&busy, &damaged);
        refuse_restore(&busy, &records[1..]);
        refuse_restore(&busy, &records[16..]);
        refuse_restore(&busy, &[]);
        refuse_restore(&busy, &[0; MOST_BYTES]);
        let mut restored = Voice::idle();
        assert_eq!(restored.restore(&records), Ok(()));
        assert_eq!(restored, busy);
    }
}

#[test]
fn every_number_has_a_text() {
    let numbers = (1..=14).chain(20..=23);
    let texts = numbers.map(|number| Refusal::unless_done(number).map_err(|why| why.to_string()));
    let texts: Vec<String> = texts.map(|text| text.expect_err("a refusal")).collect();
    assert!(
        texts
            .iter()
            .all(|text| !text.contains("no number of the table"))
    );
    assert_eq!(Refusal::unless_done(0), Ok(()));
    assert_eq!(Refusal::BUFFER_SHORT.number(), 14);
    assert_eq!(Refusal::ROOM_SHORT.number(), 23);
}
