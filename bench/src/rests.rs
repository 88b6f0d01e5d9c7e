//! Saving and restoring a voice, beside a copy of as many bytes: the Rust has nothing of the kind.

use crate::frames::{FRAME, Setting};
use crate::generator::Generator;
use crate::measure::{Pass, measure};
use crate::rows::{print_head, print_row};
use crate::shim::Voice;
use crate::variants::floats;
use crate::whole_frames::open;
use std::hint::black_box;

/// The usual voice and the largest, with the bytes of their saves.
const SETTINGS: [(Setting, usize); 2] = [(setting(25, 31, 0), 6_240), (setting(64, 64, 8), 14_672)];

const fn setting(nmcp: usize, nlpf: usize, stage: u64) -> Setting {
    Setting {
        nmcp,
        nlpf,
        stage,
        alpha: 0.42,
        beta: 0.0,
    }
}

/// The calls of a pass.
const CALLS: usize = 64;

/// Measures and prints voice by voice. False where a restored voice is not saved as it was.
pub fn print(random: &mut Generator) -> bool {
    print_head("µs a call, with nmcp/nlpf/stage; copy: of as many bytes");
    SETTINGS.iter().all(|(setting, size)| {
        let voice = within_a_frame(*setting, random);
        let Setting {
            nmcp, nlpf, stage, ..
        } = setting;
        print_voice(
            &voice,
            &format!("{nmcp}/{nlpf}/{stage}, {size} bytes"),
            *size,
        )
    })
}

/// A voice in the middle of its second frame.
fn within_a_frame(setting: Setting, random: &mut Generator) -> Voice {
    let words = floats(&setting.new_frames(random));
    let mut frames = setting.frames(&words);
    let mut voice = open(setting);
    let mut samples = [0.0; FRAME];
    voice.whole_frame(frames.next().expect("a frame"), &mut samples);
    voice.give(frames.next().expect("another"));
    voice.draw(&mut samples[..FRAME / 2]);
    voice
}

fn print_voice(voice: &Voice, set: &str, size: usize) -> bool {
    let records = saved(voice, size);
    let mut other = Voice::idle();
    other.restore(&records);
    let agree = saved(&other, size) == records;
    if agree {
        let unit = CALLS as f64 * 1e3;
        let times = measure(&passes(voice, &records), unit);
        for (function, ours) in [("save", &times[0]), ("restore", &times[1])] {
            for (way, own) in [("ours", ours), ("copy", &times[2])] {
                print_row(function, set, way, own, ours);
            }
        }
    } else {
        eprintln!("bench: {set}: a restored voice is saved otherwise, so times say nothing");
    }
    agree
}

fn saved(voice: &Voice, size: usize) -> Vec<u8> {
    let mut bytes = vec![0; size];
    assert_eq!(voice.save(&mut bytes), size);
    bytes
}

/// So many saves, restores and copies.
fn passes<'a>(voice: &'a Voice, records: &'a [u8]) -> Vec<Pass<'a>> {
    let size = records.len();
    let last = move |bytes: &[u8]| u64::from(black_box(bytes)[size - 1]);
    vec![
        Box::new(move || {
            let mut bytes = vec![0; size];
            let save = |_| black_box(voice).save(&mut bytes) as u64;
            (0..CALLS).map(save).sum::<u64>() + last(&bytes)
        }),
        Box::new(move || {
            let mut restored = Voice::idle();
            (0..CALLS).for_each(|_| restored.restore(black_box(records)));
            black_box(&restored);
            0
        }),
        Box::new(move || {
            let mut bytes = vec![0; size];
            let copy = |_| {
                bytes.copy_from_slice(black_box(records));
                last(&bytes)
            };
            (0..CALLS).map(copy).sum()
        }),
    ]
}
