//! The columns of a table of times.

use crate::measure::Times;

pub fn print_head(title: &str) {
    println!(
        "\n{title}\n{:13} {:26} {:14} {:>8} {:>8} {:>7} {:>11} {:>13}",
        "function", "inputs", "way", "best", "median", "noise", "ratio best", "ratio median"
    );
}

/// A way's times and, but of ours, the ratios of ours to them.
pub fn print_row(function: &str, set: &str, way: &str, own: &Times, ours: &Times) {
    let Times { best, median } = own;
    let noise = median / best;
    print!("{function:13} {set:26} {way:14} {best:8.2} {median:8.2} {noise:7.2}");
    if way == "ours" {
        println!();
    } else {
        println!(" {:11.2} {:13.2}", ours.best / best, ours.median / median);
    }
}
