//! The node store: nine numbers to a node, a tree's nodes in order, zeros after it.

use crate::Net;
use crate::case::{NODES_MAX, RULES_MAX, Tree};

/// A leaf is its count of rules and their cells, ascending; a branch is this mark, its test and the size of its one arm.
pub const BRANCH: u16 = RULES_MAX as u16 + 1;
pub const RUN: usize = RULES_MAX + 1;

/// The store that dispatch must leave where `old` stood: the tree or none, zeros to the end of its use, then as before.
pub fn after(tree: Option<&Tree>, old: &[u16]) -> Vec<u16> {
    let mut store = old.to_vec();
    let used = RUN * (old.len() / RUN).min(NODES_MAX);
    store[..used].fill(0);
    let nodes = tree.map(numbers).unwrap_or_default();
    store[..nodes.len()].copy_from_slice(&nodes);
    store
}

/// The tree's own numbers, and nothing after them.
pub fn numbers(tree: &Tree) -> Vec<u16> {
    let mut nodes = Vec::new();
    push(&mut nodes, tree);
    nodes
}

/// The zero arm's nodes, then the one arm's, then the branch.
fn push(nodes: &mut Vec<u16>, tree: &Tree) {
    let mut run = [0; RUN];
    match tree {
        Tree::Leaf(rules) => {
            run[0] = rules.len() as u16;
            run[1..].iter_mut().zip(rules).for_each(|(slot, rule)| *slot = cell(*rule));
        }
        Tree::Branch { test, zero, one } => {
            push(nodes, zero);
            let middle = nodes.len();
            push(nodes, one);
            run[..3].copy_from_slice(&[BRANCH, cell(*test), ((nodes.len() - middle) / RUN) as u16]);
        }
    }
    nodes.extend(run);
}

fn cell(net: Net) -> u16 {
    net.number().and_then(|number| u16::try_from(number).ok()).expect("tests and rules are cells")
}
