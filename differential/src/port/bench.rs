//! Times dispatch of the port beside that of the original, on the same matrices in one process.

use std::hint::black_box;
use std::time::{Duration, Instant};

use super::flat::{CLEAN, flat};
use super::foreign::{self, Matrix};
use super::store::RUN;
use crate::case::{self, Case, NODES_MAX, Row};
use crate::generate::cells;
use crate::original::Opened;
use crate::random::Random;
use crate::{Net, Trit, refuse};

/// Matrices of one kind, the catch-all counted among the rows; the enable is 1 and adds none.
struct Family {
    name: &'static str,
    columns: usize,
    rows: usize,
    draw: fn(&mut Random, usize, usize) -> Case,
}

const FAMILIES: [Family; 10] = [
    Family { name: "decoder 2 x 4", columns: 2, rows: 4, draw: decoder },
    Family { name: "decoder 4 x 10", columns: 4, rows: 10, draw: decoder },
    Family { name: "decoder 7 x 30", columns: 7, rows: 30, draw: decoder },
    Family { name: "decoder 8 x 24", columns: 8, rows: 24, draw: decoder },
    Family { name: "decoder 10 x 40", columns: 10, rows: 40, draw: decoder },
    Family { name: "decoder 16 x 64", columns: 16, rows: 64, draw: decoder },
    Family { name: "priority 16 x 17", columns: 16, rows: 17, draw: priority },
    Family { name: "whole 16 x 46", columns: 16, rows: 46, draw: whole },
    Family { name: "random 12 x 64", columns: 12, rows: 64, draw: tenth },
    Family { name: "one rule 16 x 64", columns: 16, rows: 64, draw: one_rule },
];
/// The family whose instructions are counted where none is named.
const COUNTED: &str = "decoder 8 x 24";
/// The columns of a decoder that nearly every row looks at.
const OPCODE_MOST: usize = 7;
/// Matrices of a family, and timed runs for each.
const MATRICES: usize = 32;
const RUNS: usize = 51;
/// A run dispatches one matrix until it has lasted so long: long against the clock, short against other work.
const LEAST: Duration = Duration::from_micros(50);

/// One matrix as each side takes it, and the size of its tree.
struct Subject {
    opened: Opened,
    given: Matrix,
    size: usize,
}

/// Prints a table: the time of a dispatch on each side, a matrix's median, the mean of a family.
pub fn run(seed: u64) -> bool {
    println!("| columns x rows | nodes, mean | original | port | port / original |");
    println!("|---|---|---|---|---|");
    let mut store = [0; RUN * NODES_MAX];
    for family in &FAMILIES {
        let subjects = subjects(seed, family);
        let nodes = subjects.iter().map(|subject| subject.size).sum::<usize>() / subjects.len();
        let original = time(&subjects, by_original);
        let port = time(&subjects, |subject| by_port(subject, &mut store));
        let ratio = port / original;
        println!("| {} | {nodes} | {original:.2} us | {port:.2} us | {ratio:.2} |", family.name);
    }
    true
}

/// Dispatches each matrix of one family once on each side, for a tool that counts instructions in the two functions.
/// They are the matrices that are timed. The family goes by its name or its place in the table, from 1.
pub fn count(seed: u64, asked: Option<&str>) -> bool {
    let asked = asked.unwrap_or(COUNTED);
    let named = |(place, family): &(usize, &Family)| family.name == asked || (place + 1).to_string() == asked;
    let Some((_, family)) = FAMILIES.iter().enumerate().find(named) else {
        eprintln!("no family {asked}; there are {:?}", FAMILIES.map(|family| family.name));
        return false;
    };
    let subjects = subjects(seed, family);
    subjects.iter().for_each(by_original);
    let mut store = [0; RUN * NODES_MAX];
    subjects.iter().for_each(|subject| by_port(subject, &mut store));
    println!("{}: {} dispatches in by_original, as many in by_port", family.name, subjects.len());
    true
}

/// Matrices whose trees fit a store of 1,024 nodes; others are drawn again. Each family begins from the seed.
fn subjects(seed: u64, family: &Family) -> Vec<Subject> {
    let mut random = Random::new(seed);
    let mut subjects = Vec::new();
    while subjects.len() < MATRICES {
        let case = (family.draw)(&mut random, family.columns, family.rows);
        if let Ok(grown) = refuse::dispatch(&case) {
            let (opened, given) = (Opened::new(&case), flat(&case.matrix, CLEAN));
            subjects.push(Subject { opened, given, size: grown.size });
        }
    }
    subjects
}

/// Rows that look at an opcode's bits and at few of the others, as an instruction decoder's do; then a catch-all.
fn decoder(random: &mut Random, columns: usize, rows: usize) -> Case {
    let outputs = cells(random, rows.div_ceil(2));
    let undefs = |column: usize| if column < OPCODE_MOST { 5 } else { 97 };
    let mut table = Vec::new();
    for _ in 1..rows {
        let pattern = pattern(random, columns, undefs);
        table.push(Row::new(pattern, vec![random.pick(&outputs)]));
    }
    case(random, columns, table, vec![])
}

/// Row k wants column k to be 1 and looks at no other: the lowest that is set wins.
fn priority(random: &mut Random, columns: usize, rows: usize) -> Case {
    let outputs = cells(random, rows - 1);
    let bit = |row: usize, column: usize| if row == column { Trit::One } else { Trit::Undef };
    let pattern = |row: usize| (0..columns).map(|column| bit(row, column)).collect();
    let table = outputs.iter().enumerate().map(|(row, &rule)| Row::new(pattern(row), vec![rule])).collect();
    case(random, columns, table, vec![])
}

/// Whole addresses, each with a rule of its own.
fn whole(random: &mut Random, columns: usize, rows: usize) -> Case {
    own_rules(random, columns, rows, 0)
}

/// One trit in ten is X, each row has a rule of its own.
fn tenth(random: &mut Random, columns: usize, rows: usize) -> Case {
    own_rules(random, columns, rows, 10)
}

fn own_rules(random: &mut Random, columns: usize, rows: usize, undefs: usize) -> Case {
    let rules = cells(random, rows - 1);
    let row = |rule: &Net| Row::new(pattern(random, columns, |_| undefs), vec![*rule]);
    let table = rules.iter().map(row).collect();
    case(random, columns, table, vec![])
}

/// Every row, the catch-all too, has the one rule: all paths are walked, and a single leaf comes of it.
fn one_rule(random: &mut Random, columns: usize, rows: usize) -> Case {
    let rule = cells(random, 1);
    let table = (1..rows).map(|_| Row::new(pattern(random, columns, |_| 10), rule.clone())).collect();
    case(random, columns, table, rule)
}

/// Each column's trit is X so many times in a hundred, else 0 or 1.
fn pattern(random: &mut Random, columns: usize, undefs: impl Fn(usize) -> usize) -> Vec<Trit> {
    let trit = |column| match random.chance(undefs(column)) {
        true => Trit::Undef,
        false => random.pick(&[Trit::Zero, Trit::One]),
    };
    (0..columns).map(trit).collect()
}

/// The rows and a catch-all with these rules, over columns that are all different.
fn case(random: &mut Random, columns: usize, mut rows: Vec<Row>, last: Vec<Net>) -> Case {
    rows.push(Row::new(vec![Trit::Undef; columns], last));
    let matrix = case::Matrix { value: cells(random, columns), rows };
    Case { family: "bench", matrix, enable: Net::ONE, merge: None }
}

/// Microseconds a dispatch: the mean over the matrices.
fn time(subjects: &[Subject], mut side: impl FnMut(&Subject)) -> f64 {
    let sum: f64 = subjects.iter().map(|subject| median(|| side(subject))).sum();
    sum / subjects.len() as f64
}

/// Microseconds a dispatch: the median of the runs, after one that is not counted.
fn median(mut dispatch: impl FnMut()) -> f64 {
    run_once(&mut dispatch);
    let mut times: Vec<f64> = (0..RUNS).map(|_| run_once(&mut dispatch)).collect();
    times.sort_by(f64::total_cmp);
    times[RUNS / 2]
}

fn run_once(dispatch: &mut impl FnMut()) -> f64 {
    let start = Instant::now();
    let mut rounds = 0;
    while start.elapsed() < LEAST {
        dispatch();
        rounds += 1;
    }
    start.elapsed().as_secs_f64() * 1e6 / f64::from(rounds)
}

/// The original takes its matrix, so each dispatch has a copy; its tree is freed at once.
#[inline(never)]
fn by_original(subject: &Subject) {
    black_box(subject.opened.clone().dispatch());
}

/// The port checks its matrix and clears the store after the tree; the store is the same one each time.
#[inline(never)]
fn by_port(subject: &Subject, store: &mut [u16]) {
    black_box(foreign::dispatch(subject.given, Net::ONE.code(), store));
}
