//! What 01 adds to the original: peaks, overlaps and the evaluator.

use crate::case::{CELL_MAX, Case, Emission, FIRST_MUX, Tree, Update};
use crate::original::Opened;
use crate::{Const, Mux, Net, Trit};

/// A tree, its size and its peak.
#[derive(Debug, Clone, PartialEq, Eq)]
pub struct Grown {
    pub tree: Tree,
    pub size: usize,
    pub peak: usize,
}

/// The case's tree by 01's rule, or none where its peak exceeds `room`.
pub fn grow(case: &Case, room: usize) -> Option<Grown> {
    grow_opened(Opened::new(case), room)
}

/// The case's peak, however large.
pub fn peak(case: &Case) -> usize {
    grow(case, usize::MAX).expect("all the room there is").peak
}

/// An arm lies behind the arm before it, so it has that much less room.
fn grow_opened(matrix: Opened, room: usize) -> Option<Grown> {
    let matrix = matrix.normalize();
    if matrix.value().is_empty() || matrix.patterns().len() == 1 {
        return (room > 0).then(|| Grown { tree: Tree::Leaf(matrix.first_rules()), size: 1, peak: 1 });
    }
    let test = test_of(&matrix);
    let zero = grow_opened(matrix.clone().assume(test, Trit::Zero), room)?;
    let one = grow_opened(matrix.assume(test, Trit::One), room - zero.size)?;
    let peak = zero.peak.max(zero.size + one.peak);
    if zero.tree == one.tree {
        return Some(Grown { peak, ..zero });
    }
    let size = zero.size + one.size + 1;
    let tree = Tree::Branch { test, zero: zero.tree.into(), one: one.tree.into() };
    (size <= room).then(|| Grown { tree, size, peak: peak.max(size) })
}

/// The net of the column with fewest X, the lowest on a tie.
fn test_of(matrix: &Opened) -> Net {
    let undefs = |column: usize| matrix.patterns().filter(|pattern| pattern[column] == Trit::Undef).count();
    let column = (0..matrix.value().len()).min_by_key(|&column| (undefs(column), column));
    matrix.value()[column.expect("a matrix with columns")]
}

/// Whether some leaf holds two rules that both have an update.
pub fn overlaps(tree: &Tree, updates: &[Update]) -> bool {
    let updated = |net: &&Net| updates.iter().any(|(rule, _)| rule == *net);
    tree.leaves().iter().any(|rules| rules.iter().filter(updated).count() > 1)
}

/// The emitted value's bits in entry order, by the original's trit mux; `known` gives the cells up to 9,999.
pub fn evaluate(emission: &Emission, known: impl Fn(u32) -> Trit) -> Vec<Trit> {
    let mut driven = Vec::new();
    for mux in &emission.muxes {
        let trit = mux_of(mux, |net| trit_of(net, &driven, &known));
        driven.push(trit);
    }
    emission.value.iter().map(|&net| trit_of(net, &driven, &known)).collect()
}

fn mux_of(mux: &Mux, trit: impl Fn(Net) -> Trit) -> Trit {
    trit(mux.select).mux(Const::from(trit(mux.one)), Const::from(trit(mux.zero))).lsb()
}

fn trit_of(net: Net, driven: &[Trit], known: &impl Fn(u32) -> Trit) -> Trit {
    match (net.as_const(), net.number()) {
        (Some(trit), _) => trit,
        (None, Some(number)) if number <= CELL_MAX => known(number),
        (None, number) => driven[(number.expect("a cell") - FIRST_MUX) as usize],
    }
}
