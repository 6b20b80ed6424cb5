//! Every small case: up to two columns and two rows, and a third row that is a catch-all.

use std::slice::from_ref;

use crate::case::{Case, Matrix, Row};
use crate::{Net, Trit};

const NETS: [Net; 5] = [Net::ZERO, Net::ONE, Net::UNDEF, Net::cell(0), Net::cell(1)];
const ENABLES: [Net; 5] = [Net::ONE, Net::ZERO, Net::UNDEF, Net::cell(0), Net::cell(5)];
const TRITS: [Trit; 3] = [Trit::Zero, Trit::One, Trit::Undef];
const COLUMNS: usize = 2;
const ROWS: usize = 2;

/// Values of 0, 1, X, %0, %1; rules from %10, %11; enables 1, 0, X, %0, %5.
pub fn cases() -> impl Iterator<Item = Case> {
    let values = (0..=COLUMNS).flat_map(|columns| lists(columns, &NETS));
    let matrices = values.flat_map(matrices);
    matrices.flat_map(|matrix| {
        ENABLES.into_iter().map(move |enable| Case { family: "small", matrix: matrix.clone(), enable, merge: None })
    })
}

fn matrices(value: Vec<Net>) -> impl Iterator<Item = Matrix> {
    let rows = rows(lists(value.len(), &TRITS));
    let catch_alls = rows.iter().filter(|row| row.is_catch_all()).cloned().collect::<Vec<_>>();
    let mut tables: Vec<Vec<Row>> = (0..=ROWS).flat_map(|count| lists(count, &rows)).collect();
    for table in lists(ROWS, &rows) {
        tables.extend(catch_alls.iter().map(|last| [&table[..], from_ref(last)].concat()));
    }
    tables.into_iter().map(move |rows| Matrix { value: value.clone(), rows })
}

fn rows(patterns: Vec<Vec<Trit>>) -> Vec<Row> {
    let (ten, eleven) = (Net::cell(10), Net::cell(11));
    let sets = [vec![], vec![ten], vec![eleven], vec![ten, eleven]];
    patterns.iter().flat_map(|pattern| sets.iter().map(|rules| Row::new(pattern.clone(), rules.clone()))).collect()
}

/// All lists of this length.
pub fn lists<T: Clone>(length: usize, from: &[T]) -> Vec<Vec<T>> {
    let mut lists = vec![Vec::new()];
    for _ in 0..length {
        lists = lists.iter().flat_map(|list| from.iter().map(|next| [&list[..], from_ref(next)].concat())).collect();
    }
    lists
}
