//! The driver of oracle/run: compares our functions with Rust's, one file a comparison, or prints
//! the fixed lists. A comparison that needs private functions of the pinned Rust may
//! `include!("vocoder/FILE.rs")` into a module of its own: the copies stand beside this file.

mod announcement;
mod answerers;
mod bridge;
mod check_fir;
mod check_pinned;
mod compare_bits;
mod compare_excitation;
mod compare_excitation_states;
mod compare_filter;
mod compare_filter_frames;
mod compare_filter_limits;
mod compare_frames;
mod compare_rest;
mod compare_rest_cuts;
mod compare_rest_damage;
mod compare_sound;
mod compare_sound_damage;
mod compare_sound_files;
mod compare_sound_numbers;
mod compare_sound_refusals;
mod compare_spectrum;
mod compare_spectrum_numbers;
mod compare_sqrt;
mod compare_voice;
mod compare_voice_open;
mod compare_voice_states;
mod compare_wrapping;
mod comparison;
#[cfg(feature = "linked")]
mod excitation_calls;
mod excitation_sides;
mod excitation_structs;
mod excitation_tally;
mod excitation_values;
mod excitations;
mod filter;
#[cfg(feature = "linked")]
mod filter_calls;
mod filter_sides;
mod filter_tally;
mod filter_values;
mod filters;
mod filters_cases;
mod float_patterns;
mod frames;
mod generated_frames;
mod generator;
mod hex_words;
#[cfg(feature = "linked")]
mod linked;
mod ours;
mod pairs_values;
mod remembered;
mod rest;
#[cfg(feature = "linked")]
mod rest_calls;
mod rest_damage;
mod rest_records;
mod rest_tally;
mod rest_values;
mod roots;
mod rusts_excitation;
mod rusts_filter;
mod rusts_spectrum;
mod rusts_vocoder;
mod rusts_voice;
mod sides;
mod sound;
#[cfg(feature = "linked")]
mod sound_calls;
mod sound_chunks;
mod sound_folder;
mod sound_reading;
mod sound_sequences;
mod sound_sides;
mod sound_silence;
mod sound_tally;
mod sound_values;
mod sound_writing;
mod spectra;
mod spectra_cases;
mod spectrum;
#[cfg(feature = "linked")]
mod spectrum_calls;
mod spectrum_cases;
mod spectrum_tally;
mod spectrum_values;
mod stretches;
mod voice;
#[cfg(feature = "linked")]
mod voice_calls;
mod voice_frames;
mod voice_numbers;
mod voice_parts;
mod voice_sides;
mod voice_slots;
mod voice_speaker;
mod voice_structs;
mod voice_tally;
mod voice_values;
mod voice_words;
mod voices;
mod voices_cases;
mod voices_refused;

use bridge::Bridge;
use ours::Ours;
use pinned::constants;
use routed::routes;
use std::cell::RefCell;
use std::path::PathBuf;
use std::process::ExitCode;
use std::rc::Rc;

const SEED: u64 = 1;
const USAGE: &str = "usage: oracle patterns | roots | excitations | spectra | filters | voices, or, with our functions linked in or \
                     behind a bridge, oracle compare|sounds|calls|frames|stretches|prepared|filtered|voiced|announcement [EMULATOR BRIDGE]";

fn main() -> ExitCode {
    let words: Vec<String> = std::env::args().skip(1).collect();
    let words: Vec<&str> = words.iter().map(String::as_str).collect();
    let done = match words[..] {
        ["patterns"] => printed(roots::print_patterns),
        ["roots"] => roots::print_roots().map(|()| true),
        ["excitations"] => printed(excitations::print_requests),
        ["spectra"] => printed(spectra::print_requests),
        ["filters"] => printed(filters::print_requests),
        ["voices"] => print_voices(),
        #[cfg(feature = "linked")]
        [what] => with(
            what,
            Ours::Linked(Box::new(voice_calls::Voices::idle())),
            "linked into the driver",
        ),
        [what, emulator, bridge] => Bridge::open(emulator, bridge)
            .map_err(|error| format!("the bridge does not start: {error}"))
            .and_then(|bridge| with(what, Ours::Bridge(bridge), "x86-64 code under an emulator")),
        _ => Err(USAGE.to_string()),
    };
    match done {
        Ok(true) => ExitCode::SUCCESS,
        Ok(false) => ExitCode::from(1),
        Err(message) => {
            eprintln!("oracle: {message}");
            ExitCode::from(2)
        }
    }
}

fn printed(print: fn()) -> Result<bool, String> {
    print();
    Ok(true)
}

fn print_voices() -> Result<bool, String> {
    voices::print_cases(&the_announcement()?).map(|()| true)
}

/// The seed of the random inputs: ORACLE_SEED, or a fixed one.
fn seed() -> Result<u64, String> {
    match std::env::var("ORACLE_SEED") {
        Ok(text) => text
            .parse()
            .map_err(|_| format!("ORACLE_SEED is not a number: {text}")),
        Err(_) => Ok(SEED),
    }
}

/// The folder of the announcement: ORACLE_FRAMES, where it holds one.
fn announcement_folder() -> Option<PathBuf> {
    let folder = PathBuf::from(std::env::var_os("ORACLE_FRAMES")?);
    folder.join("announcement.lf0").is_file().then_some(folder)
}

/// The same where nothing can be done without it.
fn the_announcement() -> Result<PathBuf, String> {
    announcement_folder().ok_or("the announcement is not in ORACLE_FRAMES".to_string())
}

/// Does what is asked with our functions within reach.
fn with(what: &str, ours: Ours, reached: &str) -> Result<bool, String> {
    let ours = Rc::new(RefCell::new(ours));
    match what {
        "compare" | "sounds" | "calls" | "frames" => compare(what, &ours, reached),
        "stretches" => excitations::print_outcomes(ours).map(|()| true),
        "prepared" => spectra::print_outcomes(ours).map(|()| true),
        "filtered" => filters::print_outcomes(ours).map(|()| true),
        "voiced" => voices::print_outcomes(&ours).map(|()| true),
        "announcement" => announcement::print_jobs(&ours, &the_announcement()?).map(|()| true),
        _ => Err(USAGE.to_string()),
    }
}

/// Runs every comparison, also after one that found a difference, or one of the last three alone: that of the sound files, of the
/// voices' calls or of the frames. True where all were as they should be.
fn compare(what: &str, ours: &Rc<RefCell<Ours>>, reached: &str) -> Result<bool, String> {
    let seed = seed()?;
    let asked = |part| what == "compare" || what == part;
    let sounds = if asked("sounds") {
        sound_folder::files()?
    } else {
        Vec::new()
    };
    println!("seed {seed}; our functions: {reached}");
    if !check_pinned::run() {
        return Err("this build of the pinned Rust is not one to compare with".to_string());
    }
    let mut equal = true;
    if what == "compare" {
        equal &= compare_functions(ours, seed);
    }
    if asked("sounds") {
        equal &= compare_sound::run(ours, seed, &sounds);
    }
    let folder = announcement_folder();
    if folder.is_none() && what != "sounds" {
        println!("the announcement is left out: its frames are not in ORACLE_FRAMES");
    }
    if asked("calls") {
        equal &= compare_voice::run(ours, seed, folder.as_deref())?;
    }
    if asked("frames") {
        equal &= compare_frames::run(ours, seed, folder.as_deref())?;
    }
    Ok(equal)
}

/// The comparisons of what a voice is made of.
fn compare_functions(ours: &Rc<RefCell<Ours>>, seed: u64) -> bool {
    let mut equal = true;
    for comparison in [compare_sqrt::run, compare_wrapping::run, compare_bits::run] {
        equal &= comparison(&mut ours.borrow_mut(), seed);
    }
    equal &= compare_excitation::run(ours, seed);
    equal &= compare_spectrum::run(ours, seed);
    equal & compare_filter::run(ours, seed)
}
