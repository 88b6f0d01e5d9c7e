//! Sound files, written whole and read: ours by one call a file, beside a plain loop in Rust over the same samples.

use crate::generator::Generator;
use crate::measure::{Pass, measure};
use crate::rows::{print_head, print_row};
use crate::{native_sounds, plain_sounds, sound_calls};
use std::f64::consts::TAU;
use std::hint::black_box;

/// A second.
const RATE: u64 = 16_000;
const SAMPLES: usize = 16_000;

const WIDTHS: [u64; 2] = [16, 24];

/// The files of a pass.
const CALLS: usize = 16;

/// One way: its name, and how it makes a file, with the count of the samples held back, and reads one.
struct Way {
    name: &'static str,
    write: fn(u64, &[f64], &mut [u8]) -> usize,
    read: fn(u64, &[u8], &mut [i32]),
}

const WAYS: [Way; 3] = [
    Way {
        name: "ours",
        write: |bits, samples, file| sound_calls::write(bits, RATE, samples, file),
        read: |bits, file, numbers| sound_calls::read(bits, RATE, file, numbers),
    },
    Way {
        name: "Rust, called",
        write: |bits, samples, file| plain_sounds::write(bits, RATE, samples, file),
        read: plain_sounds::read,
    },
    Way {
        name: "Rust, native",
        write: |bits, samples, file| native_sounds::write(bits, RATE, samples, file),
        read: native_sounds::read,
    },
];

/// Measures and prints writing, then reading. False where the ways differ in a file, a count or a number.
pub fn print(random: &mut Generator) -> bool {
    print_head(&format!("ns a sample, sound files of {SAMPLES} samples"));
    let speech = speech(random);
    let sets = [
        ("none held back", &speech),
        ("a quarter held back", &too_loud(&speech, random)),
    ];
    let write = |bits| sets.iter().all(|set| print_writing(bits, set.0, set.1));
    let read = |bits| print_reading(bits, sets[0].0, sets[0].1);
    WIDTHS.into_iter().all(write) && WIDTHS.into_iter().all(read)
}

/// As speech has them, a few thousand in size: two tones and some noise.
fn speech(random: &mut Generator) -> Vec<f64> {
    let sample = |place| {
        let turn = TAU * place as f64 / RATE as f64;
        let tones = 3000.0 * (120.0 * turn).sin() + 1000.0 * (1300.0 * turn).sin();
        tones + 200.0 * (random.unit() - 0.5)
    };
    (0..SAMPLES).map(sample).collect()
}

/// One in four out of range, at random, so that no branch is guessed.
fn too_loud(samples: &[f64], random: &mut Generator) -> Vec<f64> {
    let sample = |x: &f64| match random.below(4) {
        0 => x + 40_000.0_f64.copysign(*x),
        _ => *x,
    };
    samples.iter().map(sample).collect()
}

fn print_writing(bits: u64, set: &str, samples: &[f64]) -> bool {
    let made = WAYS.map(|way| written(&way, bits, samples));
    let passes = WAYS.map(|way| writing(way, bits, samples));
    print_ways(&format!("write {bits} bits"), set, &made, &passes)
}

fn print_reading(bits: u64, set: &str, samples: &[f64]) -> bool {
    let (_, file) = written(&WAYS[0], bits, samples);
    let made = WAYS.map(|way| {
        let mut numbers = vec![0; SAMPLES];
        (way.read)(bits, &file, &mut numbers);
        numbers
    });
    let passes = WAYS.map(|way| reading(way, bits, &file));
    print_ways(&format!("read {bits} bits"), set, &made, &passes)
}

/// Measures where the ways made the same.
fn print_ways<T: PartialEq>(function: &str, set: &str, made: &[T], passes: &[Pass]) -> bool {
    let agree = made.iter().all(|one| *one == made[0]);
    if agree {
        let times = measure(passes, (SAMPLES * CALLS) as f64);
        for (way, own) in WAYS.iter().zip(&times) {
            print_row(function, set, way.name, own, &times[0]);
        }
    } else {
        eprintln!("bench: {function}, {set}: the ways do not make the same, so times say nothing");
    }
    agree
}

/// How many samples were held back, and the file.
fn written(way: &Way, bits: u64, samples: &[f64]) -> (usize, Vec<u8>) {
    let mut file = empty(bits);
    ((way.write)(bits, samples, &mut file), file)
}

/// Room for a file.
fn empty(bits: u64) -> Vec<u8> {
    vec![0; 44 + SAMPLES * bits as usize / 8]
}

fn writing(way: Way, bits: u64, samples: &[f64]) -> Pass<'_> {
    Box::new(move || {
        let mut file = empty(bits);
        let write = |_| (way.write)(bits, black_box(samples), black_box(&mut file)) as u64;
        let held = (0..CALLS).map(write).sum();
        black_box(&file);
        held
    })
}

fn reading(way: Way, bits: u64, file: &[u8]) -> Pass<'_> {
    Box::new(move || {
        let mut numbers = vec![0; SAMPLES];
        (0..CALLS).for_each(|_| (way.read)(bits, black_box(file), black_box(&mut numbers)));
        numbers[SAMPLES - 1] as u64
    })
}
