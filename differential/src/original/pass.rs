//! Questions to the original about lists of cells: gathered matrices, chains, prefixes.

use std::collections::BTreeMap;
use std::rc::Rc;

use super::probe::{close, open_tree};
use super::{AssignChains, Decision, MatchTrees};
use crate::case::{Matrix, Tree};
use crate::{AssignCell, Cell, CellRef, Design, Net, Value};

/// A root's matrix with its enable added, and the places of the cells merged into it.
#[derive(Debug, Clone, PartialEq, Eq)]
pub struct Gathered {
    pub matrix: Matrix,
    pub cells: Vec<usize>,
}

/// Works on a copy, since the original replaces outputs without patterns on the way.
pub fn gathered(design: &Design) -> Vec<Gathered> {
    let copy = design.clone();
    let trees = MatchTrees::build(&copy);
    let matrices = trees.iter_matrices();
    matrices.map(|(matrix, cells)| Gathered { matrix: close(matrix), cells: places(&cells) }).collect()
}

/// The places of each chain of full-width assigns, longest chains only.
pub fn chains(design: &Design) -> Vec<Vec<usize>> {
    AssignChains::build(design).chains.iter().map(|chain| places(chain)).collect()
}

fn places(cells: &[CellRef]) -> Vec<usize> {
    cells.iter().map(CellRef::place).collect()
}

/// The length of the disjoint prefix of `enables`, all of them outputs of the tree.
pub fn prefix(tree: &Tree, outputs: &[Net], enables: &[Net]) -> usize {
    if enables.is_empty() {
        return 0;
    }
    let decision = Rc::new(open_tree(tree));
    let occurrences = occurrences(&decision);
    let decisions = BTreeMap::from_iter(outputs.iter().map(|&net| (net, decision.clone())));
    let design = chain_of(enables);
    let chains = AssignChains { chains: vec![design.iter_cells().collect()] };
    let (_, cut) = chains.iter_disjoint(&decisions, &occurrences).next().expect("every enable is an output");
    cut.len()
}

/// The leaves that name each net, numbered as the original's pass numbers them.
fn occurrences(decision: &Decision) -> BTreeMap<Net, Vec<u32>> {
    let mut occurrences: BTreeMap<Net, Vec<u32>> = BTreeMap::new();
    let mut branch = 0;
    decision.each_leaf(&mut |rules| {
        rules.iter().for_each(|&rule| occurrences.entry(rule).or_default().push(branch));
        branch += 1;
    });
    occurrences
}

/// One assign of one bit for each enable; a prefix depends on nothing else of the cells.
fn chain_of(enables: &[Net]) -> Design {
    let bit = |net: Net| Value::from(vec![net]);
    let mut design = Design::new();
    for (place, &enable) in enables.iter().enumerate() {
        let cell = AssignCell { value: bit(Net::ZERO), enable, update: bit(Net::ONE), offset: 0 };
        let output = u32::try_from(place).expect("a chain stays short");
        design.add_cell(bit(Net::cell(output)), Cell::Assign(cell));
    }
    design
}
