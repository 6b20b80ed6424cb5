//! What is asked and answered, in plain lists: matrices, cases, trees and emitted values.

use crate::{Mux, Net, Trit};

pub const COLUMNS_MAX: usize = 16;
pub const ROWS_MAX: usize = 64;
pub const RULES_MAX: usize = 8;
pub const NODES_MAX: usize = 1_024;
pub const WIDTH_MAX: usize = 64;
pub const MUXES_MAX: usize = 8_192;
pub const CELL_MAX: u32 = 9_999;
/// The first mux of a table drives this cell number, each later one the next.
pub const FIRST_MUX: u32 = 10_000;

/// `pattern` has column 0 first; `rules` ascend.
#[derive(Debug, Clone, PartialEq, Eq)]
pub struct Row {
    pub pattern: Vec<Trit>,
    pub rules: Vec<Net>,
}

/// `value` has column 0 first, the rightmost in print.
#[derive(Debug, Clone, PartialEq, Eq, Default)]
pub struct Matrix {
    pub value: Vec<Net>,
    pub rows: Vec<Row>,
}

/// A parent and a child, merged where the parent's rows name `at`.
#[derive(Debug, Clone, PartialEq, Eq)]
pub struct Merge {
    pub parent: Matrix,
    pub at: Net,
    pub child: Matrix,
}

/// A matrix before the enable is added, and the enable.
#[derive(Debug, Clone, PartialEq, Eq)]
pub struct Case {
    /// How it was made, in a word.
    pub family: &'static str,
    pub matrix: Matrix,
    pub enable: Net,
    /// The merge that made the matrix, where one did.
    pub merge: Option<Merge>,
}

#[derive(Debug, Clone, PartialEq, Eq)]
pub enum Tree {
    Leaf(Vec<Net>),
    Branch { test: Net, zero: Box<Tree>, one: Box<Tree> },
}

/// The muxes put into an empty table, and the nets of the emitted value, bit 0 first.
#[derive(Debug, Clone, PartialEq, Eq)]
pub struct Emission {
    pub muxes: Vec<Mux>,
    pub value: Vec<Net>,
}

/// An update of disjoint emission: the rule's net and its bits, bit 0 first.
pub type Update = (Net, Vec<Net>);

impl Row {
    /// Rules are put in order, each once.
    pub fn new(pattern: Vec<Trit>, mut rules: Vec<Net>) -> Row {
        rules.sort();
        rules.dedup();
        Row { pattern, rules }
    }

    pub fn is_catch_all(&self) -> bool {
        self.pattern.iter().all(|&trit| trit == Trit::Undef)
    }
}

impl Matrix {
    pub fn cells(&self) -> impl Iterator<Item = Net> + '_ {
        self.value.iter().copied().filter(|net| net.is_cell())
    }

    pub fn ends_in_catch_all(&self) -> bool {
        self.rows.last().is_some_and(Row::is_catch_all)
    }
}

impl Tree {
    /// The rules of every leaf, the zero arm's before the one arm's.
    pub fn leaves(&self) -> Vec<&[Net]> {
        let mut leaves = Vec::new();
        self.push_leaves(&mut leaves);
        leaves
    }

    fn push_leaves<'a>(&'a self, leaves: &mut Vec<&'a [Net]>) {
        match self {
            Tree::Leaf(rules) => leaves.push(rules),
            Tree::Branch { zero, one, .. } => {
                zero.push_leaves(leaves);
                one.push_leaves(leaves);
            }
        }
    }

    /// Nodes, leaves and branches together.
    pub fn size(&self) -> usize {
        match self {
            Tree::Leaf(_) => 1,
            Tree::Branch { zero, one, .. } => zero.size() + one.size() + 1,
        }
    }
}
