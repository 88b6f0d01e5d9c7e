//! What the functions on spectra are tried with: every length that they take, by every kind of spectrum.

use crate::excitation_values::{NEVER, floats};
use crate::generator::Generator;
use crate::pairs_values::PAIRS;
use crate::spectrum::{Request, Step};
use crate::spectrum_values::{CEPSTRA, Kind, any_alpha, any_beta};
use std::iter::repeat_n;
use std::ops::RangeInclusive;

/// A function, the kinds of its first array, how many calls for each kind and length, and how many of a
/// hundred are to be inside.
pub struct Family {
    pub name: &'static str,
    pub step: Step,
    kinds: &'static [Kind],
    rounds: usize,
    pub inside: RangeInclusive<u64>,
}

/// Of a function that asks nothing that could be outside, and of one that does.
const ALL: RangeInclusive<u64> = 100..=100;
const SOME: RangeInclusive<u64> = 25..=95;

/// A row of the table below.
const fn family(
    name: &'static str,
    step: Step,
    kinds: &'static [Kind],
    rounds: usize,
    inside: RangeInclusive<u64>,
) -> Family {
    Family {
        name,
        step,
        kinds,
        rounds,
        inside,
    }
}

/// The energy of a cepstrum takes long, so it comes up less often.
pub const FAMILIES: [Family; 16] = [
    family("mc2b", Step::Mc2b, &CEPSTRA, 20, ALL),
    family("b2mc", Step::B2mc, &CEPSTRA, 20, ALL),
    family("freqt", Step::Freqt, &CEPSTRA, 10, ALL),
    family("c2ir", Step::C2ir, &CEPSTRA, 400, ALL),
    family("b2en", Step::B2en, &CEPSTRA, 6, ALL),
    family("gnorm", Step::Gnorm, &CEPSTRA, 20, SOME),
    family("ignorm", Step::Ignorm, &CEPSTRA, 20, SOME),
    family("gc2gc", Step::Gc2gc, &CEPSTRA, 20, ALL),
    family("postfilter_mcp", Step::PostfilterMcp, &CEPSTRA, 8, SOME),
    family("lsp2lpc", Step::Lsp2lpc, &PAIRS, 20, SOME),
    family("lsp2mgc", Step::Lsp2mgc, &PAIRS, 20, SOME),
    family("lsp2en", Step::Lsp2en, &PAIRS, 20, SOME),
    family("postfilter_lsp", Step::PostfilterLsp, &PAIRS, 20, SOME),
    family(
        "check_lsp_stability",
        Step::CheckLspStability,
        &PAIRS,
        20,
        ALL,
    ),
    family("prepare_mcp", Step::PrepareMcp, &CEPSTRA, 8, SOME),
    family("prepare_lsp", Step::PrepareLsp, &PAIRS, 30, SOME),
];

/// Up to so many entries, each length is a case of its own to the postfilters and to the repair.
const SHORT: usize = 5;

impl Family {
    /// Short ones come up four times as often.
    pub fn requests(&self, random: &mut Generator) -> impl Iterator<Item = Request> {
        let often = |entries| self.rounds * if entries <= SHORT { 4 } else { 1 };
        let lengths = self.step.entries();
        let rounds = lengths.flat_map(move |entries| repeat_n(entries, often(entries)));
        let kinds = rounds.flat_map(|entries| self.kinds.iter().map(move |kind| (entries, *kind)));
        kinds.map(|(entries, kind)| request(self.step, entries, kind, random))
    }
}

/// A call with any scalars; what it writes to holds any numbers before.
pub fn request(step: Step, entries: usize, kind: Kind, random: &mut Generator) -> Request {
    let [_, second, third] = step.lengths(entries);
    let mut request = Request {
        step,
        alpha: any_alpha(random),
        beta: any_beta(random),
        stage: 1 + random.below(8),
        log_gain: random.below(2) == 0,
        first: random.below(2) == 0,
        arrays: [
            kind(entries, random),
            floats(second, NEVER, random),
            floats(third, NEVER, random),
        ],
    };
    if step == Step::Gc2gc {
        let shorter = 1 + random.below(entries as u64) as usize;
        request.arrays[1].truncate(shorter);
    }
    request
}
