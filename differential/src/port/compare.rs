//! Holds the port's answers against the original's, and against 01's numbers, on one case: subject by subject.

use super::flat::Past;
use super::{brute, dispatches, drawn, emission, forms, matrices, prefixes, texts, trees, values};
use crate::case::{Row, Tree};
use crate::kinds::{Counts, Told};
use crate::random::Random;
use crate::{Net, original};

/// An error names the subject on which port and original, or port and 01, differ.
pub type Held = Result<(), &'static str>;

/// How many cases in a hundred come with a tree that no dispatch gives.
const DRAWN: usize = 20;

/// Counted beside the subjects, to hold their counts against.
pub const TREES: &str = "cases with a tree";
pub const DRAWN_TREES: &str = "other trees handed in";
pub const BESIDE: [&str; 4] = [TREES, DRAWN_TREES, brute::CASES, brute::UNKNOWN];

/// Everything that is compared, in the order that a run prints.
pub const SUBJECTS: [&str; 40] = [
    matrices::NEW,
    matrices::ADD,
    matrices::ADD_REFUSED,
    matrices::ASSUME,
    matrices::OUTPUTS,
    matrices::MERGE,
    matrices::ADD_ENABLE,
    matrices::NORMALIZE,
    forms::SPOILED,
    forms::MISSHAPEN,
    forms::LISTS,
    dispatches::TREE,
    dispatches::REFUSED,
    trees::CHECK,
    trees::REPEATED,
    trees::SIZE,
    trees::DESCENDING,
    trees::HIGH,
    trees::ROOT,
    trees::CHANGED,
    trees::ELSEWHERE,
    texts::PRINT,
    texts::PRINT_TREE,
    texts::READ,
    texts::DAMAGED,
    emission::ONE_HOT,
    emission::ONE_HOT_REFUSED,
    emission::DISJOINT,
    emission::DISJOINT_REFUSED,
    prefixes::PREFIX,
    prefixes::NO_OUTPUT,
    prefixes::REFUSED,
    values::TABLE,
    values::MODEL,
    values::FIRST_ROW,
    values::FILLING,
    values::ANY,
    values::REFUSED,
    brute::KNOWN,
    brute::FILLING,
];

/// One case as it is put to the port.
pub struct Asked<'a> {
    pub random: &'a mut Random,
    pub told: &'a Told,
    /// What stands in the unused slots of every matrix handed in.
    pub past: Past,
    counts: &'a mut Counts,
}

impl Asked<'_> {
    /// Counts one comparison.
    pub fn hold(&mut self, subject: &'static str, equal: bool) -> Held {
        self.counts.add(&[subject]);
        if equal { Ok(()) } else { Err(subject) }
    }

    /// Counts something that is no comparison.
    pub fn count(&mut self, what: &'static str) {
        self.counts.add(&[what]);
    }
}

/// The first subject on which something differs.
pub fn difference(random: &mut Random, counts: &mut Counts, told: &Told) -> Option<&'static str> {
    let past = Past(random.pick(&[0, 0xa5, 0xff]));
    of_case(&mut Asked { random, told, past, counts }).err()
}

fn of_case(asked: &mut Asked) -> Held {
    let case = &asked.told.case;
    matrices::hold(asked)?;
    forms::hold(asked)?;
    texts::hold(asked)?;
    let tree = asked.told.answer.is_ok().then(|| original::tree(case));
    dispatches::hold(asked, tree.as_ref())?;
    if let Some(tree) = &tree {
        asked.count(TREES);
        of_tree(asked, tree, &original::outputs(&case.matrix))?;
        values::hold(asked, tree)?;
    }
    if asked.random.chance(DRAWN) {
        asked.count(DRAWN_TREES);
        let tree = drawn::tree(asked.random);
        let named = Row::new(vec![], tree.leaves().concat()).rules;
        of_tree(asked, &tree, &named)?;
    }
    Ok(())
}

/// All that is asked of a tree by itself.
fn of_tree(asked: &mut Asked, tree: &Tree, outputs: &[Net]) -> Held {
    trees::hold(asked, tree)?;
    texts::hold_tree(asked, tree)?;
    emission::hold(asked, tree, outputs)?;
    prefixes::hold(asked, tree, outputs)
}
