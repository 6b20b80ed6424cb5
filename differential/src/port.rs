//! The port, linked from its static library, held against the original and 01, and timed beside the original.

pub mod bench;
mod brute;
pub mod compare;
mod dispatches;
mod drawn;
mod emission;
pub mod flat;
pub mod foreign;
mod forms;
mod handed;
mod matrices;
mod prefixes;
pub mod store;
mod tables;
mod texts;
mod trees;
mod values;

use crate::case::Case;
use crate::generate::Generator;
use crate::kinds::Counts;
use crate::random::Random;
use crate::small;
use crate::stats::Run;

/// Seeded cases, then every small one; true if every kind has its share, every subject was compared, every small case
/// with a tree was gone through at every setting, and nothing differs.
pub fn run(seed: u64, cases: usize) -> bool {
    let mut random = Random::new(!seed);
    let (seeded, of_seeded) = over(&mut random, Generator::new(seed).take(cases));
    println!("seed {seed}, {cases} cases");
    let enough = seeded.print_shares();
    let every_size = seeded.print_sizes();
    println!("and every small case");
    let (small, of_small) = over(&mut random, small::cases());
    let every_subject = print_subjects(&of_seeded, &of_small);
    let every_small = print_left_out(&of_small);
    print_settings(&[&of_seeded, &of_small]);
    seeded.and(small).print_end() && enough && every_size && every_subject && every_small
}

/// Seeded cases alone, for the gate; true if nothing differs.
pub fn sample(seed: u64, cases: usize) -> bool {
    let (seeded, of_seeded) = over(&mut Random::new(!seed), Generator::new(seed).take(cases));
    print_settings(&[&of_seeded]);
    seeded.print_end()
}

fn over(random: &mut Random, cases: impl Iterator<Item = Case>) -> (Run, Counts) {
    let mut counts = Counts::default();
    let run = Run::over(cases, |told| compare::difference(random, &mut counts, told));
    (run, counts)
}

/// Prints how often each subject was compared, in seeded and in small cases; true if each was in seeded ones.
fn print_subjects(seeded: &Counts, small: &Counts) -> bool {
    println!("{:34} {:>10} {:>10}", "compared", "seeded", "small");
    let line = |subject: &&str| {
        let (seeded, small) = (seeded.of(subject), small.of(subject));
        println!("{subject:34} {seeded:10} {small:10}{}", if seeded == 0 { " never" } else { "" });
        seeded > 0
    };
    compare::BESIDE.iter().chain(&compare::SUBJECTS).filter(|subject| !line(subject)).count() == 0
}

/// Prints how many small cases have a tree and were not gone through at every setting; true if none.
fn print_left_out(small: &Counts) -> bool {
    let left = small.of(compare::TREES) - small.of(brute::CASES);
    if left > 0 {
        println!("{left} small cases with a tree were not gone through at every setting");
    }
    left == 0
}

/// Prints how many settings brute force tried.
fn print_settings(runs: &[&Counts]) {
    let all = |what: &str| runs.iter().map(|counts| counts.of(what)).sum::<usize>();
    let (cells, cases) = (brute::CELLS_MAX, all(brute::CASES));
    let (known, unknown) = (all(brute::KNOWN), all(brute::UNKNOWN));
    let tried = known + unknown;
    println!("brute force, up to {cells} cells: {cases} cases, {tried} settings, {unknown} of them partly unknown");
}
