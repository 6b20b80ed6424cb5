//! Counts the kinds of cases in a run, and holds 01's words against the original on each.

use std::collections::BTreeSet;

use crate::case::{COLUMNS_MAX, Case, ROWS_MAX};
use crate::check::disagreement;
use crate::generate::Generator;
use crate::kinds::{Counts, KINDS, Told, tell};
use crate::random::Random;
use crate::small;

/// The least share of a run that each kind must have.
const LEAST_PERCENT: usize = 1;

/// The kinds and sizes of the cases asked, and on how many of them something differed.
#[derive(Default)]
pub struct Run {
    counts: Counts,
    columns: BTreeSet<usize>,
    rows: BTreeSet<usize>,
    cases: usize,
    failed: usize,
}

/// A run over seeded cases; true if every kind has its share and nothing disagrees.
pub fn run(seed: u64, cases: usize) -> bool {
    let run = Run::over(Generator::new(seed).take(cases), held_to_words(seed));
    println!("seed {seed}, {cases} cases");
    let enough = run.print_shares();
    let every_size = run.print_sizes();
    run.print_end() && enough && every_size
}

/// Every small case; true if nothing disagrees.
pub fn run_small(seed: u64) -> bool {
    Run::over(small::cases(), held_to_words(seed)).print_end()
}

fn held_to_words(seed: u64) -> impl FnMut(&Told) -> Option<&'static str> {
    let mut random = Random::new(!seed);
    move |told| disagreement(&mut random, told)
}

impl Run {
    /// Counts each case, and prints those on which `difference` finds one.
    pub fn over(cases: impl Iterator<Item = Case>, mut difference: impl FnMut(&Told) -> Option<&'static str>) -> Run {
        let mut run = Run::default();
        for case in cases {
            let told = tell(case);
            run.count(&told);
            if let Some(what) = difference(&told) {
                run.failed += 1;
                println!("case {}: {what} differs: {:?}", run.cases, told.case);
            }
        }
        run
    }

    fn count(&mut self, told: &Told) {
        let matrix = &told.case.matrix;
        self.columns.insert(matrix.value.len());
        self.rows.insert(matrix.rows.len());
        self.cases += 1;
        self.counts.add(&told.kinds);
    }

    /// Both runs as one; kinds and sizes stay those of this one.
    pub fn and(self, other: Run) -> Run {
        Run { cases: self.cases + other.cases, failed: self.failed + other.failed, ..self }
    }

    /// Prints each kind's count and share; true if none is under the least.
    pub fn print_shares(&self) -> bool {
        let mut enough = true;
        for kind in KINDS {
            let count = self.counts.of(kind);
            let few = count * 100 < self.cases * LEAST_PERCENT;
            enough &= !few;
            let share = count as f64 * 100.0 / self.cases as f64;
            println!("{kind:26} {count:8} {share:5.1}%{}", if few { " too few" } else { "" });
        }
        enough
    }

    /// Prints which sizes up to one past the bounds did not occur before the enable; true if all did.
    pub fn print_sizes(&self) -> bool {
        let missing =
            |most: usize, seen: &BTreeSet<usize>| (0..=most + 1).filter(|size| !seen.contains(size)).collect();
        let columns: Vec<usize> = missing(COLUMNS_MAX, &self.columns);
        let rows: Vec<usize> = missing(ROWS_MAX, &self.rows);
        println!("columns 0 to {} without {columns:?}, rows 0 to {} without {rows:?}", COLUMNS_MAX + 1, ROWS_MAX + 1);
        columns.is_empty() && rows.is_empty()
    }

    /// Prints how many passed and failed; true if none failed.
    pub fn print_end(&self) -> bool {
        println!("{} passed, {} failed", self.cases - self.failed, self.failed);
        self.failed == 0
    }
}
