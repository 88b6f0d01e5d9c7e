//! The benchmark of bench/run: our functions, called through the static library, beside Rust's.

mod breakdown;
mod cases;
mod chart;
// The pinned file has constants of other parts too.
#[allow(dead_code)]
mod constants;
#[path = "vocoder/excitation.rs"]
mod excitation;
mod excitation_structs;
mod excitations;
mod filter_calls;
mod filters;
mod frames;
mod generator;
mod inputs;
mod measure;
mod native;
mod native_sounds;
mod our_filter;
mod parts;
mod plain_sounds;
mod preparations;
mod preparing_calls;
mod rests;
mod rows;
mod shim;
mod sound_calls;
mod sounds;
mod spectra;
mod stretches;
mod variants;
mod vocoder;
mod whole_frames;

use cases::Case;
use chart::Measured;
use generator::Generator;
use inputs::COUNT;
use measure::{ROUNDS, STRETCH, measure};
use rows::{print_head, print_row};
use std::process::ExitCode;

const SEED: u64 = 1;

/// The condition of the pinned `mul_add!` (mlsa.rs): whether the Rust's filter rounds once where ours rounds twice.
const FUSED: bool = cfg!(any(
    all(target_arch = "x86_64", target_feature = "fma"),
    all(target_arch = "aarch64", target_feature = "neon"),
));

/// Cases whose times are given in one unit.
struct Table {
    title: String,
    /// How many ns the unit has.
    unit: f64,
    cases: Vec<Case>,
}

fn main() -> ExitCode {
    let Some(chart) = std::env::args().nth(1) else {
        eprintln!("usage: bench CHART (the file that the chart of whole frames is written to)");
        return ExitCode::from(2);
    };
    let least = STRETCH.as_millis();
    println!("{ROUNDS} interleaved rounds, each way at least {least} ms a round");
    println!("ours: called through the static libraries");
    println!("Rust, called: through an #[inline(never)] function; Rust, inlined: the plain loop");
    println!("Rust, native: built with every instruction of this processor, through a call");
    println!("noise: median/best; ratios: ours/Rust, by best and by median");
    if FUSED {
        println!(
            "for this processor the pinned filter of stage 0 is built with fused multiply-add, ours is not"
        );
    }
    let random = &mut Generator::new(SEED);
    let tables = tables(random);
    let Some(measured) = tables.iter().map(print_table).collect::<Option<Vec<_>>>() else {
        return ExitCode::from(1);
    };
    let done = breakdown::print(&tables[3].cases) && rests::print(random) && sounds::print(random);
    std::fs::write(chart, chart::svg(&measured[3])).expect("the chart's folder is there");
    ExitCode::from(u8::from(!done))
}

fn tables(random: &mut Generator) -> [Table; 4] {
    [
        Table {
            title: format!("ns a call, over {COUNT} independent inputs; excitation: ns a sample"),
            unit: 1.0,
            cases: cases::all(random),
        },
        Table {
            title: "µs a frame, from its spectrum to its coefficients".to_string(),
            unit: 1e3,
            cases: preparations::all(random),
        },
        Table {
            title: "ns a sample, from the excitation on".to_string(),
            unit: 1.0,
            cases: stretches::all(random),
        },
        Table {
            title: "ns a sample, whole frames with nmcp/nlpf/stage".to_string(),
            unit: 1.0,
            cases: whole_frames::all(random),
        },
    ]
}

/// Measures and prints case by case. None where the ways of one do not make the same.
fn print_table(table: &Table) -> Option<Vec<Measured>> {
    print_head(&table.title);
    let unit = table.unit;
    table.cases.iter().map(|case| print_case(case, unit)).collect()
}

fn print_case(case: &Case, unit: f64) -> Option<Measured> {
    if !case.ways_agree() {
        eprintln!(
            "bench: {} over {}: the sums of the results differ too much, so times say nothing",
            case.function, case.set
        );
        return None;
    }
    let times = measure(&case.passes(), case.count as f64 * unit);
    for (way, own) in case.variants.iter().zip(&times) {
        print_row(case.function, &case.set, way.name, own, &times[0]);
    }
    let names = case.variants.iter().map(|way| way.name);
    Some(Measured {
        set: case.set.clone(),
        ways: names.zip(times).collect(),
    })
}
