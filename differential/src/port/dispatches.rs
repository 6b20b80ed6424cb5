//! Dispatch, against the original's tree and 01's peaks and numbers.

use super::compare::{Asked, Held};
use super::flat::flat;
use super::foreign::{self, Dispatched, Matrix};
use super::store::{self, RUN};
use crate::case::{NODES_MAX, Tree};
use crate::refuse;

pub const TREE: &str = "dispatch, a tree";
pub const REFUSED: &str = "dispatch, refused";

/// Stores around the peak and around the limit, each with some numbers after its last whole run.
pub fn hold(asked: &mut Asked, tree: Option<&Tree>) -> Held {
    let told = asked.told;
    let given = flat(&told.case.matrix, asked.past);
    let peak = told.answer.as_ref().map_or(told.peak.unwrap_or(1), |grown| grown.peak);
    for entries in [peak, peak - 1, NODES_MAX, NODES_MAX + asked.random.below(3)] {
        let length = RUN * entries + asked.random.below(RUN);
        of_store(asked, given, tree, length)?;
    }
    Ok(())
}

fn of_store(asked: &mut Asked, given: Matrix, tree: Option<&Tree>, length: usize) -> Held {
    let answer = match (&asked.told.answer, tree) {
        (Ok(grown), _) if length / RUN < grown.peak => Err(refuse::NODES),
        (Ok(_), Some(tree)) => Ok(tree),
        (Ok(_), None) => return Err(TREE),
        (Err(no), _) => Err(*no),
    };
    let (subject, wanted) = match answer {
        Ok(tree) => (TREE, Dispatched { no: 0, root: tree.size() - 1, size: tree.size() }),
        Err(no) => (REFUSED, Dispatched { no, root: 0, size: 0 }),
    };
    // No number of a node is so high: what is left of it shows.
    let old = vec![0xfedc; length];
    let mut store = old.clone();
    let equal = foreign::dispatch(given, asked.told.case.enable.code(), &mut store) == wanted;
    asked.hold(subject, equal && store == store::after(answer.ok(), &old))
}
