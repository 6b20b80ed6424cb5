//! Questions to the original about one matrix or one tree.

use std::collections::{BTreeMap, BTreeSet};
use std::panic::{self, AssertUnwindSafe};

use super::{Decision, MatchMatrix, MatchRow};
use crate::case::{Case, Emission, Matrix, Merge, Row, Tree, Update};
use crate::{Const, Design, Mux, Net, Trit, Value};

/// The original's own matrix, for a walk that asks it step by step.
#[derive(Clone)]
pub struct Opened(MatchMatrix);

impl Opened {
    pub fn new(case: &Case) -> Opened {
        let mut matrix = open(&case.matrix);
        matrix.add_enable(case.enable);
        Opened(matrix)
    }

    pub fn normalize(self) -> Opened {
        Opened(self.0.normalize())
    }

    pub fn assume(self, target: Net, trit: Trit) -> Opened {
        Opened(self.0.assume(target, trit))
    }

    pub fn value(&self) -> &[Net] {
        &self.0.value
    }

    pub fn patterns(&self) -> impl ExactSizeIterator<Item = &[Trit]> {
        self.0.rows.iter().map(|row| &row.pattern[..])
    }

    /// The original's own tree, for timing: it can only be held and dropped.
    pub fn dispatch(self) -> impl Sized {
        self.0.dispatch()
    }

    /// The first row's rules, or none where there are no rows.
    pub fn first_rules(&self) -> Vec<Net> {
        self.0.rows.first().map(|row| row.rules.iter().copied().collect()).unwrap_or_default()
    }
}

fn open(matrix: &Matrix) -> MatchMatrix {
    let mut opened = MatchMatrix::new(matrix.value.clone());
    for row in &matrix.rows {
        opened.add(open_row(row));
    }
    opened
}

fn open_row(row: &Row) -> MatchRow {
    MatchRow::new(Const::from(row.pattern.clone()), row.rules.iter().copied())
}

pub(super) fn close(matrix: MatchMatrix) -> Matrix {
    let rows = matrix.rows.into_iter();
    Matrix {
        value: matrix.value.to_vec(),
        rows: rows.map(|row| Row::new(row.pattern.iter().collect(), row.rules.into_iter().collect())).collect(),
    }
}

pub(super) fn open_tree(tree: &Tree) -> Decision {
    match tree {
        Tree::Leaf(rules) => Decision::Result { rules: BTreeSet::from_iter(rules.iter().copied()) },
        Tree::Branch { test, zero, one } => {
            Decision::Branch { test: *test, if0: open_tree(zero).into(), if1: open_tree(one).into() }
        }
    }
}

fn close_tree(decision: Decision) -> Tree {
    match decision {
        Decision::Result { rules } => Tree::Leaf(rules.into_iter().collect()),
        Decision::Branch { test, if0, if1 } => {
            Tree::Branch { test, zero: close_tree(*if0).into(), one: close_tree(*if1).into() }
        }
    }
}

/// The matrix that the original builds of rows whose rules come in any order and repeat.
pub fn built(matrix: &Matrix) -> Matrix {
    close(open(matrix))
}

/// One row more; none where the original panics, which it does at a pattern of another length than the value.
pub fn added(matrix: &Matrix, row: &Row) -> Option<Matrix> {
    let mut opened = open(matrix);
    quietly(|| opened.add(open_row(row)))?;
    Some(close(opened))
}

pub fn merge(merge: &Merge) -> Matrix {
    close(open(&merge.parent).merge(merge.at, &open(&merge.child)))
}

/// The case's matrix with its enable added.
pub fn enabled(case: &Case) -> Matrix {
    close(Opened::new(case).0)
}

pub fn assume(matrix: &Matrix, target: Net, trit: Trit) -> Matrix {
    close(open(matrix).assume(target, trit))
}

pub fn outputs(matrix: &Matrix) -> Vec<Net> {
    open(matrix).iter_outputs().collect()
}

pub fn normalize(matrix: &Matrix) -> Matrix {
    close(open(matrix).normalize())
}

/// The case's matrix with its enable added, normalized.
pub fn normalized(case: &Case) -> Matrix {
    close(Opened::new(case).0.normalize())
}

/// The case's tree, whether or not 01 refuses the case.
pub fn tree(case: &Case) -> Tree {
    close_tree(Opened::new(case).0.dispatch())
}

pub fn print_matrix(matrix: &Matrix) -> String {
    open(matrix).to_string()
}

pub fn print_tree(tree: &Tree) -> String {
    open_tree(tree).to_string()
}

pub fn one_hot(tree: &Tree, outputs: &[Net]) -> Emission {
    one_hot_after(&[], tree, outputs)
}

/// With muxes that are there before; the emission has them first.
pub fn one_hot_after(used: &[Mux], tree: &Tree, outputs: &[Net]) -> Emission {
    let design = with_muxes(used);
    let value = open_tree(tree).emit_one_hot_mux(&design, &Value::from(outputs.to_vec()));
    Emission { muxes: design.muxes(), value: value.to_vec() }
}

/// None where the original panics, which it does at a leaf that holds two rules with updates.
pub fn disjoint(tree: &Tree, updates: &[Update], default: &[Net]) -> Option<Emission> {
    disjoint_after(&[], tree, updates, default)
}

/// With muxes that are there before; the emission has them first.
pub fn disjoint_after(used: &[Mux], tree: &Tree, updates: &[Update], default: &[Net]) -> Option<Emission> {
    let design = with_muxes(used);
    let values = BTreeMap::from_iter(updates.iter().map(|(net, bits)| (*net, Value::from(bits.clone()))));
    let decision = open_tree(tree);
    let value = quietly(|| decision.emit_disjoint_mux(&design, &values, &Value::from(default.to_vec())))?;
    Some(Emission { muxes: design.muxes(), value: value.to_vec() })
}

fn with_muxes(used: &[Mux]) -> Design {
    let design = Design::new();
    let bit = |net: Net| Value::from(vec![net]);
    used.iter().for_each(|mux| drop(design.add_mux(mux.select, bit(mux.one), bit(mux.zero))));
    design
}

/// None where it panics; the panic prints nothing.
fn quietly<T>(ask: impl FnOnce() -> T) -> Option<T> {
    let hook = panic::take_hook();
    panic::set_hook(Box::new(|_| ()));
    let answer = panic::catch_unwind(AssertUnwindSafe(ask)).ok();
    panic::set_hook(hook);
    answer
}
