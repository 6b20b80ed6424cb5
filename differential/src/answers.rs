//! The fixed list of the original's answers: a stream of cases, and a choice from it.

use crate::case::Case;
use crate::damage::{self, Bytes};
use crate::format::{Asked, can_write, write};
use crate::generate::Generator;
use crate::kinds::{Counts, KINDS, Told, tell};
use crate::random::Random;
use crate::{original, questions, small};

const CASES: usize = 800;
/// Each kind that the list can hold comes this often at least.
const QUOTA: usize = 20;
/// Of all small cases, one in so many.
const SMALL_STEP: usize = 8_009;
/// A stream that does not fill every quota in so many cases never will.
const STREAM_MOST: usize = 100_000;
/// The bytes of a case: of one that fills a quota, and of any other.
const LARGE: usize = 2_000;
const SMALL: usize = 380;
/// Further questions are asked of matrices with at most so many printed bytes.
const ASKED_MOST: usize = 250;
/// Refusals and trees of one or three nodes are about one in so many.
const SHORT_ONE_IN: usize = 2;
const LINE_MOST: usize = 199;

/// A matrix with nine rules in a row, or with cell 10,000, has no printed text.
const UNPRINTED: [&str; 2] = ["refused 4", "refused 5"];

struct List {
    random: Random,
    counts: Counts,
    cases: usize,
    short: usize,
    text: String,
}

/// Prints the first cases of the stream that have a printed text.
pub fn print(seed: u64, cases: usize) {
    let mut list = List::new(seed);
    let told = Generator::new(seed).map(tell).filter(can_write);
    told.take(cases).for_each(|told| list.add(told, usize::MAX));
    print!("{}", list.text);
}

/// The whole list with its header.
pub fn answers(seed: u64) -> String {
    let mut list = List::new(seed);
    small::cases().step_by(SMALL_STEP).for_each(|case| list.offer(case));
    let mut stream = Generator::new(seed).take(STREAM_MOST);
    while list.cases < CASES || list.scarce().next().is_some() {
        let case = stream.next().unwrap_or_else(|| panic!("too few of {:?}", list.scarce().collect::<Vec<_>>()));
        list.offer(case);
    }
    format!("{}{}S {}\n", header(seed, &list), list.text, list.cases)
}

impl List {
    fn new(seed: u64) -> List {
        List { random: Random::new(!seed), counts: Counts::default(), cases: 0, short: 0, text: String::new() }
    }

    fn scarce(&self) -> impl Iterator<Item = &'static str> + '_ {
        KINDS.into_iter().filter(|kind| !UNPRINTED.contains(kind) && self.counts.of(kind) < QUOTA)
    }

    /// Takes a case that fills a quota, and small ones while there is room, but not too many with next to no tree.
    fn offer(&mut self, case: Case) {
        let told = tell(case);
        let scarce = self.scarce().any(|kind| told.kinds.contains(&kind));
        let dull = is_short(&told) && self.short > self.cases / SHORT_ONE_IN;
        if can_write(&told) && (scarce || self.cases < CASES && !dull) {
            self.add(told, if scarce { LARGE } else { SMALL });
        }
    }

    /// Adds the case unless its text has over `most` bytes or a line that is too long.
    fn add(&mut self, told: Told, most: usize) {
        let asked = self.ask(&told);
        let text = write(self.cases + 1, &told, &asked);
        if text.len() <= most && text.lines().all(|line| line.len() <= LINE_MOST) {
            self.cases += 1;
            self.short += usize::from(is_short(&told));
            self.counts.add(&told.kinds);
            self.text.push_str(&text);
        }
    }

    /// Each further question of every second or third case; updates where rules share a leaf of nearly all.
    fn ask(&mut self, told: &Told) -> Asked {
        let (random, case) = (&mut self.random, &told.case);
        let text = original::print_matrix(&case.matrix);
        if text.len() > ASKED_MOST {
            return Asked::default();
        }
        let tree = told.answer.as_ref().ok().map(|grown| &grown.tree);
        let outputs = original::outputs(&case.matrix);
        let assume = random.chance(30).then(|| questions::assumption(random, case));
        let together = tree.is_some_and(|tree| tree.leaves().iter().any(|rules| rules.len() > 1));
        let percent = if together { 90 } else { 40 };
        let disjoint = tree.filter(|_| random.chance(percent)).map(|tree| questions::disjoint(random, &outputs, tree));
        let enables = tree.filter(|_| random.chance(40)).map(|tree| questions::enables(random, &outputs, tree));
        let enables = enables.filter(|enables| !enables.is_empty());
        let damaged = random.chance(25).then(|| damage::damaged(random, &text, Bytes::Printable));
        Asked { assume, disjoint, enables, damaged }
    }
}

fn is_short(told: &Told) -> bool {
    told.answer.as_ref().map_or(true, |grown| grown.size <= 3)
}

fn header(seed: u64, list: &List) -> String {
    let mut header = format!(
        "# The original's answers. Made by: differential/run answers --seed {seed} > differential/answers.txt\n\
         # The lines are described in differential/README.md. Cases of each kind:\n"
    );
    for kind in KINDS.into_iter().filter(|kind| !UNPRINTED.contains(kind)) {
        header.push_str(&format!("# {} {kind}\n", list.counts.of(kind)));
    }
    header
}
