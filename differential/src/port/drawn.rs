//! Trees such as may be handed in but come of no dispatch: equal arms, empty arms, hundreds of tests on a path.

use crate::Net;
use crate::case::{CELL_MAX, NODES_MAX, RULES_MAX, Row, Tree};
use crate::generate::cell;
use crate::random::Random;

/// The branches of the largest tree that is well formed.
const BRANCHES_MAX: usize = (NODES_MAX - 1) / 2;

/// How a tree's branches are shared out between two arms.
#[derive(Clone, Copy)]
enum Form {
    /// Nearly all on one side: a long path.
    Chain,
    Any,
}

/// Small mostly; now and then of the most nodes that there may be, or of two more.
pub fn tree(random: &mut Random) -> Tree {
    let most = random.pick(&[1, 3, 8, 20]);
    let branches = if random.chance(1) { BRANCHES_MAX + random.below(2) } else { random.between(0, most) };
    let form = if random.chance(30) { Form::Chain } else { Form::Any };
    let first = random.pick(&[0, 9, CELL_MAX as usize / 2, CELL_MAX as usize]);
    grown(random, branches, form, first)
}

/// Each level of a path has two tests of its own, from `first` on and around, so that no path tests a net twice.
fn grown(random: &mut Random, branches: usize, form: Form, first: usize) -> Tree {
    if branches == 0 {
        return leaf(random);
    }
    let test = (first + random.below(2)) % (CELL_MAX as usize + 1);
    let below = branches - 1;
    let zeros = match form {
        Form::Chain => random.pick(&[0, below]),
        Form::Any => random.between(0, below),
    };
    let zero = grown(random, zeros, form, first + 2);
    let equal = 2 * zeros == below && random.chance(30);
    let one = if equal { zero.clone() } else { grown(random, below - zeros, form, first + 2) };
    Tree::Branch { test: Net::cell(test as u32), zero: zero.into(), one: one.into() }
}

fn leaf(random: &mut Random) -> Tree {
    let most = random.pick(&[0, 1, 2, RULES_MAX]);
    let rules = (0..most).map(|_| cell(random)).collect();
    Tree::Leaf(Row::new(vec![], rules).rules)
}
