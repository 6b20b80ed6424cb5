//! The disjoint prefix, against the original where every net is an output, and against 01 elsewhere.

use super::compare::{Asked, Held};
use super::flat::codes;
use super::foreign::{self, Answered};
use super::handed::{self, is_name, is_net};
use super::store::{self, RUN};
use crate::case::{CELL_MAX, Tree};
use crate::generate::cell;
use crate::refuse::{FORM, NET};
use crate::{Net, original, questions};

pub const PREFIX: &str = "prefix";
pub const NO_OUTPUT: &str = "prefix, a net that is no output";
pub const REFUSED: &str = "prefix, refused";

/// Enables that are outputs, the same with any net among them, and with one that is 4 or 12.
pub fn hold(asked: &mut Asked, tree: &Tree, outputs: &[Net]) -> Held {
    let mut enables = questions::enables(asked.random, outputs, tree);
    of_enables(asked, PREFIX, tree, outputs, &enables)?;
    let place = asked.random.below(enables.len() + 1);
    enables.insert(place, cell(asked.random));
    of_enables(asked, NO_OUTPUT, tree, outputs, &enables)?;
    of_refused(asked, tree, outputs, &enables)
}

/// 01 ends the prefix at a net that is no output, so the original is asked for what stands before it.
fn of_enables(asked: &mut Asked, subject: &'static str, tree: &Tree, outputs: &[Net], enables: &[Net]) -> Held {
    let store = store::numbers(tree);
    let root = store.len() / RUN - 1;
    let before = enables.iter().take_while(|net| outputs.contains(net)).count();
    let wanted = match handed::tree(&store, root) {
        Some(tree) => Answered { no: 0, value: original::prefix(&tree, outputs, &enables[..before]) },
        None => Answered { no: FORM, value: 0 },
    };
    asked.hold(subject, foreign::prefix(&store, root, &codes(outputs), &codes(enables)) == wanted)
}

fn of_refused(asked: &mut Asked, tree: &Tree, outputs: &[Net], enables: &[Net]) -> Held {
    let (mut outputs, mut enables) = (codes(outputs), codes(enables));
    let wrong = asked.random.pick(&[0, 1, 2, CELL_MAX as u16 + 4, handed::LAST_NET, handed::LAST_NET + 1, u16::MAX]);
    let list = if asked.random.chance(50) { &mut outputs } else { &mut enables };
    list.insert(asked.random.below(list.len() + 1), wrong);
    let store = store::numbers(tree);
    let root = store.len() / RUN - 1;
    let every = |net: fn(u16) -> bool| outputs.iter().chain(&enables).copied().all(net);
    let form = handed::tree(&store, root).is_none() || !every(is_net);
    let no = if form { FORM } else { NET };
    let wanted = Answered { no, value: 0 };
    asked.hold(REFUSED, !every(is_name) && foreign::prefix(&store, root, &outputs, &enables) == wanted)
}
