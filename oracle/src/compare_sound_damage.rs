//! Readings of damaged files, of which every bit is flipped and which are cut short everywhere, and of random chunks.

use crate::generator::Generator;
use crate::ours::Ours;
use crate::sound_chunks::built;
use crate::sound_folder::Named;
use crate::sound_reading::heard;
use crate::sound_sequences::any_file;
use crate::sound_sides::Sides;
use std::cell::RefCell;

/// So many files of random chunks, of which each number must come up so often.
const SEQUENCES: usize = 20_000;
const LEAST: u64 = 1_000;

/// The room for samples where a file has none to tell of.
const USUAL: usize = 12;

const MET: [(&str, &[&str]); 1] = [("read", &["0", "20", "21", "23"])];

/// Three files of our own making, and those of other programs.
pub fn damaged(ours: &RefCell<Ours>, others: &[Named]) -> bool {
    let mut good = true;
    for (name, file) in built().iter().chain(others) {
        let mut sides = Sides::new(&format!("damage of {name}"), "files", ours);
        flipped(&mut sides, file);
        cut_short(&mut sides, file);
        let met = sides.tally.has_met(&MET, 1);
        good &= sides.tally.finish() && met;
    }
    good
}

/// As it is, then with every single bit the other way round.
fn flipped(sides: &mut Sides, file: &[u8]) {
    let usual = heard(file, &[]).count;
    sides.tally.inputs(1);
    sides.read_twice(|| "as it is".to_string(), file, usual);
    let mut damaged = file.to_vec();
    for byte in 0..file.len() {
        for bit in 0..8 {
            damaged[byte] ^= 1 << bit;
            sides.tally.inputs(1);
            let what = || format!("bit {bit} of byte {byte} flipped");
            sides.read_twice(what, &damaged, usual);
            damaged[byte] ^= 1 << bit;
        }
    }
}

fn cut_short(sides: &mut Sides, file: &[u8]) {
    let usual = heard(file, &[]).count;
    for length in 0..file.len() {
        sides.tally.inputs(1);
        let what = || format!("cut to {length} bytes");
        sides.read_twice(what, &file[..length], usual);
    }
}

pub fn sequences(ours: &RefCell<Ours>, random: &mut Generator) -> bool {
    let mut sides = Sides::new("random chunks", "files", ours);
    for number in 0..SEQUENCES {
        let file = any_file(random);
        sides.tally.inputs(1);
        let what = || format!("file {number}, {}", hex(&file));
        sides.read_twice(what, &file, USUAL);
    }
    let met = sides.tally.has_met(&MET, LEAST);
    sides.tally.finish() && met
}

fn hex(bytes: &[u8]) -> String {
    bytes.iter().map(|byte| format!("{byte:02x}")).collect()
}
