//! 01's sentences on matrices, prints, muxes and prefixes as code of their own, to hold against the original.

use crate::case::{Case, Emission, FIRST_MUX, Matrix, Merge, Row, Tree, Update};
use crate::{Mux, Net, Trit};

pub fn add_enable(case: &Case) -> Matrix {
    let Case { matrix, enable, .. } = case;
    if *enable == Net::ONE {
        return matrix.clone();
    }
    let undefs = vec![Trit::Undef; matrix.value.len()];
    let off = Row { pattern: [undefs, vec![Trit::Zero]].concat(), rules: vec![] };
    let on = |row: &Row| Row { pattern: [&row.pattern[..], &[Trit::One]].concat(), rules: row.rules.clone() };
    Matrix {
        value: [&matrix.value[..], &[*enable]].concat(),
        rows: std::iter::once(off).chain(matrix.rows.iter().map(on)).collect(),
    }
}

pub fn merge(merge: &Merge) -> Matrix {
    let Merge { parent, at, child } = merge;
    let outside = [Row { pattern: vec![Trit::Undef; child.value.len()], rules: vec![] }];
    let mut rows = Vec::new();
    for row in &parent.rows {
        let below = if row.rules.contains(at) { &child.rows[..] } else { &outside };
        rows.extend(below.iter().map(|other| {
            Row::new([&row.pattern[..], &other.pattern].concat(), [&row.rules[..], &other.rules].concat())
        }));
    }
    Matrix { value: [&parent.value[..], &child.value].concat(), rows }
}

pub fn assume(matrix: &Matrix, target: Net, trit: Trit) -> Matrix {
    let put = |&net: &Net| if net == target { Net::from(trit) } else { net };
    Matrix { value: matrix.value.iter().map(put).collect(), rows: matrix.rows.clone() }
}

pub fn outputs(matrix: &Matrix) -> Vec<Net> {
    Row::new(vec![], matrix.rows.iter().flat_map(|row| row.rules.clone()).collect()).rules
}

pub fn normalize(matrix: &Matrix) -> Matrix {
    let value = &matrix.value;
    let mut last: Option<&Row> = None;
    let mut kept: Vec<Row> = Vec::new();
    for row in &matrix.rows {
        if last.is_some_and(|last| last.pattern == row.pattern || last.is_catch_all()) {
            continue;
        }
        last = Some(row);
        kept.extend(masks(value, &row.pattern).map(|pattern| Row { pattern, rules: row.rules.clone() }));
    }
    let stays = |column: usize| {
        value[column].is_cell()
            && first_column(value, column) == column
            && kept.iter().any(|row| row.pattern[column] != Trit::Undef)
    };
    let columns: Vec<usize> = (0..value.len()).filter(|&column| stays(column)).collect();
    let cut = |row: &Row| Row {
        pattern: columns.iter().map(|&column| row.pattern[column]).collect(),
        rules: row.rules.clone(),
    };
    Matrix { value: columns.iter().map(|&column| value[column]).collect(), rows: kept.iter().map(cut).collect() }
}

fn first_column(value: &[Net], column: usize) -> usize {
    value.iter().position(|&net| net == value[column]).expect("the column itself")
}

/// The row's masks with those of repeats moved to the first column, or none where the row is dropped.
fn masks(value: &[Net], pattern: &[Trit]) -> Option<Vec<Trit>> {
    let mut masks = pattern.to_vec();
    for column in 0..value.len() {
        let mask = pattern[column];
        let first = first_column(value, column);
        let against = value[column].as_const().unwrap_or(masks[first]);
        let constant = !value[column].is_cell();
        if mask != Trit::Undef && mask != against && (constant || against != Trit::Undef) {
            return None;
        }
        if !constant && masks[first] == Trit::Undef {
            masks[first] = mask;
        }
    }
    Some(masks)
}

pub fn print_matrix(matrix: &Matrix) -> String {
    let nets: String = matrix.value.iter().rev().map(|net| format!(" {net}")).collect();
    let rows = matrix.rows.iter().map(|row| format!("  {} =>{}\n", print_trits(&row.pattern), print_rules(&row.rules)));
    format!("[{nets} ]:\n{}", rows.collect::<String>())
}

fn print_trits(pattern: &[Trit]) -> String {
    let trits: Vec<String> = pattern.iter().rev().map(Trit::to_string).collect();
    trits.chunks(4).map(<[String]>::concat).collect::<Vec<_>>().join("_")
}

fn print_rules(rules: &[Net]) -> String {
    if rules.is_empty() { " (empty)".into() } else { rules.iter().map(|rule| format!(" {rule}")).collect() }
}

pub fn print_tree(tree: &Tree) -> String {
    match tree {
        Tree::Leaf(rules) => format!("=>{}\n", print_rules(rules)),
        Tree::Branch { test, zero, one } => print_arm(test, 0, zero) + &print_arm(test, 1, one),
    }
}

/// An empty leaf prints nothing; the lines of a nested arm stand two spaces further in.
fn print_arm(test: &Net, bit: u8, arm: &Tree) -> String {
    match arm {
        Tree::Leaf(rules) if rules.is_empty() => String::new(),
        Tree::Leaf(rules) => format!("{test} = {bit} =>{}\n", print_rules(rules)),
        nested => {
            let inner: String = print_tree(nested).lines().map(|line| format!("  {line}\n")).collect();
            format!("{test} = {bit} =>\n{inner}")
        }
    }
}

pub fn one_hot(tree: &Tree, outputs: &[Net]) -> Emission {
    let bit = |rules: &[Net], output: &Net| if rules.contains(output) { Net::ONE } else { Net::ZERO };
    emit(tree, &|rules| outputs.iter().map(|output| bit(rules, output)).collect())
}

/// For updates that don't overlap; the last one for a net counts.
pub fn disjoint(tree: &Tree, updates: &[Update], default: &[Net]) -> Emission {
    let update = |rules: &[Net]| updates.iter().rev().find(|(net, _)| rules.contains(net));
    emit(tree, &|rules| update(rules).map_or(default.to_vec(), |(_, bits)| bits.clone()))
}

fn emit(tree: &Tree, leaf: &impl Fn(&[Net]) -> Vec<Net>) -> Emission {
    let mut muxes = Vec::new();
    let value = emit_into(&mut muxes, tree, leaf);
    Emission { muxes, value }
}

fn emit_into(muxes: &mut Vec<Mux>, tree: &Tree, leaf: &impl Fn(&[Net]) -> Vec<Net>) -> Vec<Net> {
    let (test, zero, one) = match tree {
        Tree::Leaf(rules) => return leaf(rules),
        Tree::Branch { test, zero, one } => (*test, zero, one),
    };
    let one = emit_into(muxes, one, leaf);
    let zero = emit_into(muxes, zero, leaf);
    let first = FIRST_MUX + muxes.len() as u32;
    muxes.extend(one.iter().zip(&zero).map(|(&one, &zero)| Mux { select: test, one, zero }));
    (first..).map(Net::cell).take(one.len()).collect()
}

/// The longest prefix in which no leaf names the enables of two different positions.
pub fn prefix(tree: &Tree, enables: &[Net]) -> usize {
    let leaves = tree.leaves();
    let named = |enables: &[Net], leaf: &[Net]| enables.iter().filter(|net| leaf.contains(net)).count();
    let apart = |length: &usize| leaves.iter().all(|leaf| named(&enables[..*length], leaf) < 2);
    (0..=enables.len()).take_while(apart).last().expect("the empty prefix")
}
