//! The check of a tree handed in: good ones, and ones with one thing wrong, each against 01's words.

use super::compare::{Asked, Held};
use super::foreign::{self, Answered, Lent};
use super::store::{self, BRANCH, RUN};
use super::{handed, tables};
use crate::Net;
use crate::case::{CELL_MAX, NODES_MAX, Tree};
use crate::random::Random;
use crate::refuse::FORM;

pub const CHECK: &str = "check of a tree";
pub const REPEATED: &str = "check, a test repeated";
pub const SIZE: &str = "check, a size wrong";
pub const DESCENDING: &str = "check, rules descending";
pub const HIGH: &str = "check, a cell over 9,999";
pub const ROOT: &str = "check, another root";
pub const CHANGED: &str = "check, a number changed";
pub const ELSEWHERE: &str = "malformed tree, any other call";

const MALFORMED: Answered = Answered { no: FORM, value: 0 };

/// The tree as it is, and spoiled in one of six ways.
pub fn hold(asked: &mut Asked, tree: &Tree) -> Held {
    let numbers = store::numbers(tree);
    let root = numbers.len() / RUN - 1;
    of_store(asked, CHECK, &numbers, root)?;
    match asked.random.below(6) {
        0 => of_repeated(asked, tree),
        1 => of_run(asked, SIZE, numbers, wrong_size),
        2 => of_run(asked, DESCENDING, numbers, descend),
        3 => of_run(asked, HIGH, numbers, high),
        4 => of_root(asked, numbers),
        _ => of_run(asked, CHANGED, numbers, change),
    }
}

/// The tree's size where 01 calls it well formed, else 12. Numbers after the root are not looked at.
fn of_store(asked: &mut Asked, subject: &'static str, numbers: &[u16], root: usize) -> Held {
    let rubbish = vec![0xfedc; asked.random.below(3 * RUN)];
    let store = [numbers, &rubbish].concat();
    let answer = foreign::check(&store, root);
    match handed::tree(&store, root) {
        Some(tree) => asked.hold(subject, answer == Answered { no: 0, value: tree.size() }),
        None => {
            asked.hold(subject, answer == MALFORMED)?;
            let equal = refuses(asked.random, &store, root);
            asked.hold(ELSEWHERE, equal)
        }
    }
}

/// One of the other calls that take a tree: 12, and nothing written.
fn refuses(random: &mut Random, store: &[u16], root: usize) -> bool {
    let (mut table, mut out) = ([1; RUN], [1; RUN]);
    let equal = match random.below(4) {
        0 => foreign::one_hot(store, root, &[], 0, &mut table) == tables::refusal(FORM),
        1 => foreign::disjoint(store, root, &Lent::default(), 0, &mut table) == tables::refusal(FORM),
        2 => foreign::prefix(store, root, &[], &[]) == MALFORMED,
        _ => foreign::print_tree(store, root, &mut out) == MALFORMED,
    };
    equal && table == [1; RUN] && out == [1; RUN]
}

/// A leaf becomes a branch that tests what is tested above it; a tree without tests gets two first.
fn of_repeated(asked: &mut Asked, tree: &Tree) -> Held {
    let mut tree = tree.clone();
    let mut path = Vec::new();
    let mut at = &mut tree;
    while let Tree::Branch { test, zero, one } = at {
        path.push(*test);
        at = if asked.random.chance(50) { zero } else { one };
    }
    let test = if path.is_empty() { Net::cell(CELL_MAX) } else { asked.random.pick(&path) };
    *at = over(test, at.clone());
    if path.is_empty() {
        tree = over(test, tree);
    }
    let numbers = store::numbers(&tree);
    of_store(asked, REPEATED, &numbers, numbers.len() / RUN - 1)
}

fn over(test: Net, zero: Tree) -> Tree {
    Tree::Branch { test, zero: zero.into(), one: Tree::Leaf(vec![]).into() }
}

/// Any place up to one past the limit, and the store cut short or made longer.
fn of_root(asked: &mut Asked, mut numbers: Vec<u16>) -> Held {
    let random = &mut *asked.random;
    let entries = numbers.len() / RUN;
    let root = match random.below(4) {
        0 => entries + random.below(3),
        1 => random.below(entries),
        2 => random.pick(&[NODES_MAX - 1, NODES_MAX, usize::MAX]),
        _ => entries - 1,
    };
    match random.below(3) {
        0 => numbers.truncate(numbers.len() - random.below(RUN + 1)),
        1 => numbers.resize(RUN * (NODES_MAX + random.below(2)), 0),
        _ => (),
    }
    of_store(asked, ROOT, &numbers, root)
}

/// One run spoiled: of the kind that the spoiling needs, where there is one.
fn of_run(
    asked: &mut Asked,
    subject: &'static str,
    mut numbers: Vec<u16>,
    spoil: fn(&mut Random, &mut [u16], bool),
) -> Held {
    let root = numbers.len() / RUN - 1;
    let first = asked.random.below(root + 1);
    let wants_branch = asked.random.chance(50) || subject == SIZE;
    let wants_branch = wants_branch && subject != DESCENDING;
    let runs = (first..=root).chain(0..first);
    let place = runs.into_iter().find(|place| (numbers[RUN * place] == BRANCH) == wants_branch).unwrap_or(first);
    let run = &mut numbers[RUN * place..RUN * (place + 1)];
    let branch = run[0] == BRANCH;
    spoil(asked.random, run, branch);
    of_store(asked, subject, &numbers, root)
}

fn wrong_size(random: &mut Random, run: &mut [u16], _: bool) {
    let any = random.below(NODES_MAX) as u16;
    run[2] = random.pick(&[run[2] + 1, run[2] + 2, run[2].wrapping_sub(1), run[2].wrapping_sub(2), 0, any]);
}

/// Two rules in the wrong order, or the same one twice; a leaf with fewer gets two.
fn descend(random: &mut Random, run: &mut [u16], branch: bool) {
    let count = if branch { 0 } else { usize::from(run[0]) };
    if count < 2 {
        run[..3].copy_from_slice(&[2, 5, 5 - random.below(2) as u16]);
        return;
    }
    let place = random.between(1, count - 1);
    if random.chance(50) {
        run.swap(place, place + 1);
    } else {
        run[place + 1] = run[place];
    }
}

/// The test or the last rule; an empty leaf gets a rule.
fn high(random: &mut Random, run: &mut [u16], branch: bool) {
    run[0] = run[0].max(1);
    let place = if branch { 1 } else { usize::from(run[0]) };
    run[place] = random.pick(&[CELL_MAX as u16, CELL_MAX as u16 + 1, 10_002, 10_003, u16::MAX]);
}

fn change(random: &mut Random, run: &mut [u16], _: bool) {
    let any = random.draw() as u16;
    run[random.below(RUN)] = random.pick(&[0, 1, 2, BRANCH - 1, BRANCH, BRANCH + 1, any % (CELL_MAX as u16), any]);
}
