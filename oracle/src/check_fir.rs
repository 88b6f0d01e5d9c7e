//! The Rust's own `fir` on numbers whose sums and taps are known: the plain formulas, group and single taps.

use crate::rusts_filter::mlsa::filtered;

/// Alpha, the input, the taps, the coefficients; then the sum, and the taps after it.
type Known = (
    f64,
    f64,
    &'static [f64],
    &'static [f64],
    f64,
    &'static [f64],
);

const TWO_TO_53: f64 = 9_007_199_254_740_992.0;

/// A group, whose sums are rounded in an order that shows in the last bit; two taps alone; none after the first two; a group and
/// a tap, whose two sums one sum would not give.
const KNOWN: [Known; 4] = [
    (
        0.5,
        0.0,
        &[0.0, 0.0, 4.0, 1.0, 0.0, 2.0 * TWO_TO_53],
        &[0.0, 0.0, 1.0, 1.0, 1.0, 1.0],
        TWO_TO_53 + 6.0,
        &[0.0, 0.0, 2.0, 3.5, -0.75, TWO_TO_53],
    ),
    (
        0.0,
        5.0,
        &[0.0, 1.0, 2.0, 3.0],
        &[0.0, 0.0, 10.0, 100.0],
        210.0,
        &[0.0, 5.0, 1.0, 2.0],
    ),
    (0.5, 2.0, &[0.0, 4.0], &[0.0, 0.0], 0.0, &[1.0, 3.5]),
    (
        0.0,
        0.0,
        &[0.0, 1.0, TWO_TO_53, 0.0, 0.0, 1.0, 0.0],
        &[1.0; 7],
        TWO_TO_53 + 2.0,
        &[0.0, 0.0, 1.0, TWO_TO_53, 0.0, 0.0, 1.0],
    ),
];

/// Whether the Rust gives what is known; every difference is printed.
pub fn run() -> bool {
    let mut differences = 0;
    for (alpha, x, d, c, sum, after) in KNOWN {
        let mut taps = d.to_vec();
        let found = filtered(&mut taps, x, alpha, c);
        if found != sum || taps != after {
            println!("fir of {x} and {d:?}: the Rust gives {found:?} and {taps:?}");
            differences += 1;
        }
    }
    println!(
        "filters, the Rust's fir: {} known sums, {differences} differences",
        KNOWN.len()
    );
    differences == 0
}
