//! The archive has every field where the struct has it: configurations read back from opened voices, and the records of busy voices held to
//! their fields, slot by slot.

use super::{BUSY_DRAWN, JOBS, busy_voice, job};
use crate::{Configuration, MOST_BYTES, Voice};
use std::collections::HashSet;

fn bits(floats: &[f64]) -> impl Iterator<Item = u64> {
    floats.iter().map(|x| x.to_bits())
}

/// The values of a voice's slots in document 01's order, read from its fields.
fn slots(voice: &Voice) -> Vec<u64> {
    let (c, p) = (&voice.configuration, &voice.pulse);
    let mut slots = vec![
        c.nmcp as u64,
        c.nlpf as u64,
        c.stage,
        u64::from(c.log),
        c.rate,
    ];
    slots.extend(bits(&[c.alpha, c.beta, c.volume]));
    slots.push(c.fperiod as u64);
    slots.extend(bits(&[c.nodata, c.low, c.high]));
    slots.extend([voice.meter, voice.left as u64, u64::from(voice.first)]);
    slots.extend(bits(&[p.pitch, p.counter, p.increment, p.end]));
    slots.extend(bits(&voice.line[..c.nlpf]));
    slots.extend(bits(&voice.lpf[..c.nlpf]));
    slots.extend([voice.random.next, voice.random.used as u64]);
    slots.extend(bits(&voice.random.queue));
    for entries in [&voice.coefficients, &voice.increments, &voice.targets] {
        slots.extend(bits(&entries[..c.nmcp]));
    }
    if c.stage > 0 {
        slots.extend(bits(&voice.nonzero[..c.stage as usize * c.nmcp]));
    } else {
        let zero = &voice.zero;
        slots.extend(
            [&zero.d11, &zero.d12, &zero.d22]
                .into_iter()
                .flat_map(|taps| bits(taps)),
        );
        slots.extend(bits(&zero.d21[..6 * c.nmcp]));
    }
    slots
}

fn hold_to_records(voice: &Voice) {
    let mut records = [0; MOST_BYTES];
    let length = voice.save(&mut records).expect("a voice that can be saved");
    let (words, _) = records[..length].as_chunks::<8>();
    let mut words = words.iter().map(|word| u64::from_le_bytes(*word));
    let slots = slots(voice);
    assert_eq!(length, 16 * slots.len());
    for (number, value) in slots.into_iter().enumerate() {
        assert_eq!(words.next(), Some(number as u64));
        assert_eq!(words.next(), Some(value), "the value of slot {number}");
    }
}

#[test]
fn a_configuration_comes_back_from_its_places() {
    for log in [false, true] {
        let configuration = Configuration {
            nmcp: 7,
            nlpf: 3,
            stage: 5,
            log,
            rate: 44_100,
            alpha: -0.25,
            beta: 0.5,
            volume: 3.5,
            fperiod: 11,
            nodata: -77.0,
            low: 1.5,
            high: 6.25,
        };
        let voice = Voice::open(configuration).expect("a good configuration");
        let mut fresh = Voice::idle();
        (fresh.configuration, fresh.first) = (configuration, true);
        (fresh.random.next, fresh.random.used) = (1, 64);
        assert_eq!(voice, fresh);
        hold_to_records(&voice);
    }
}

/// Nearly every slot of a busy voice has a value of its own.
#[test]
fn every_slot_is_the_field_of_its_name() {
    for which in 0..JOBS {
        let job = job(which);
        let voice = busy_voice(&job);
        let Configuration {
            nmcp,
            nlpf,
            stage,
            fperiod,
            ..
        } = job.configuration;
        assert_eq!(voice.meter(), (fperiod + BUSY_DRAWN) as u64);
        assert_eq!((voice.left(), voice.first), (fperiod - BUSY_DRAWN, false));
        let different: HashSet<u64> = slots(&voice).into_iter().collect();
        assert!(different.len() > nlpf + 64 + 3 * nmcp + stage as usize * nmcp);
        hold_to_records(&voice);
    }
}
