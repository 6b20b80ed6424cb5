//! The kinds of cases that a run counts.

use std::collections::BTreeMap;

use crate::case::{COLUMNS_MAX, Case, Matrix, NODES_MAX, ROWS_MAX, RULES_MAX, Row, WIDTH_MAX};
use crate::{Net, Trit, model, original, refuse};

/// A case, its answer by 01, and the kinds it is of.
pub struct Told {
    pub case: Case,
    /// The number where adding the enable or dispatch is refused.
    pub answer: Result<model::Grown, u8>,
    /// The peak, where it is at most one past the limit.
    pub peak: Option<usize>,
    pub kinds: Vec<&'static str>,
}

/// Every kind, in the order that a run prints.
pub const KINDS: [&str; 30] = [
    "peak over size",
    "refused 7",
    "peak 1,024",
    "peak 1,025",
    "constant 0",
    "constant 1",
    "constant X",
    "repeated net",
    "enable 1",
    "enable 0",
    "enable X",
    "enable a fresh cell",
    "enable a column",
    "a column is a rule",
    "over 8 columns",
    "over 32 rows",
    "merged",
    "merge refused",
    "row dropped by a constant",
    "no catch-all, refused 6",
    "16 columns",
    "64 rows",
    "8 rules in a row",
    "refused 1",
    "refused 2",
    "refused 4",
    "refused 5",
    "64 outputs",
    "one-hot refused 8",
    "one-hot refused 10",
];

/// How often each kind occurred.
#[derive(Default)]
pub struct Counts(BTreeMap<&'static str, usize>);

impl Counts {
    pub fn add(&mut self, kinds: &[&'static str]) {
        kinds.iter().for_each(|kind| *self.0.entry(kind).or_default() += 1);
    }

    pub fn of(&self, kind: &str) -> usize {
        self.0.get(kind).copied().unwrap_or(0)
    }
}

/// Answers the case and tells its kinds; a refused merge makes no matrix, so it is of no other kind.
pub fn tell(case: Case) -> Told {
    let answer = refuse::dispatch(&case);
    let peak = match &answer {
        Ok(grown) => Some(grown.peak),
        Err(refuse::NODES) => model::grow(&case, NODES_MAX + 1).map(|grown| grown.peak),
        Err(_) => None,
    };
    let mut kinds = of_merge(&case);
    if !kinds.contains(&"merge refused") {
        kinds.extend(of_answer(&answer, peak, original::outputs(&case.matrix).len()));
        kinds.extend(of_value(&case));
        kinds.extend(of_enable(&case));
        kinds.extend(of_size(&case));
    }
    Told { case, answer, peak, kinds }
}

fn chosen<const N: usize>(holds: [(&'static str, bool); N]) -> Vec<&'static str> {
    holds.into_iter().filter_map(|(kind, holds)| holds.then_some(kind)).collect()
}

fn of_merge(case: &Case) -> Vec<&'static str> {
    let refused = case.merge.as_ref().is_some_and(|merge| refuse::of_merge(merge, &case.matrix).is_some());
    chosen([("merged", case.merge.is_some()), ("merge refused", refused)])
}

fn of_answer(answer: &Result<model::Grown, u8>, peak: Option<usize>, outputs: usize) -> Vec<&'static str> {
    let refused = |number: u8| answer.as_ref().err() == Some(&number);
    let emission = answer.as_ref().ok().and_then(|grown| refuse::of_emission(&grown.tree, outputs));
    chosen([
        ("peak over size", answer.as_ref().is_ok_and(|grown| grown.peak > grown.size)),
        ("peak 1,024", peak == Some(NODES_MAX)),
        ("peak 1,025", peak == Some(NODES_MAX + 1)),
        ("refused 1", refused(refuse::COLUMNS)),
        ("refused 2", refused(refuse::ROWS)),
        ("refused 4", refused(refuse::NET)),
        ("refused 5", refused(refuse::RULES)),
        ("no catch-all, refused 6", refused(refuse::CATCH)),
        ("refused 7", refused(refuse::NODES)),
        ("64 outputs", outputs == WIDTH_MAX),
        ("one-hot refused 8", emission == Some(refuse::WIDTH)),
        ("one-hot refused 10", emission == Some(refuse::ROOM)),
    ])
}

fn of_value(case: &Case) -> Vec<&'static str> {
    let value = &case.matrix.value;
    let repeated = |(place, net): (usize, &Net)| net.is_cell() && value[..place].contains(net);
    let ruled = original::outputs(&case.matrix);
    chosen([
        ("constant 0", value.contains(&Net::ZERO)),
        ("constant 1", value.contains(&Net::ONE)),
        ("constant X", value.contains(&Net::UNDEF)),
        ("repeated net", value.iter().enumerate().any(repeated)),
        ("a column is a rule", value.iter().any(|net| ruled.contains(net))),
        ("row dropped by a constant", drops_by_constant(&case.matrix)),
    ])
}

/// Whether some row, not removed for the row before it, contradicts a constant of the value.
fn drops_by_constant(matrix: &Matrix) -> bool {
    let against = |(net, &mask): (&Net, &Trit)| net.as_const().is_some_and(|trit| mask != Trit::Undef && mask != trit);
    let mut last: Option<&Row> = None;
    for row in &matrix.rows {
        if last.is_some_and(|last| last.pattern == row.pattern || last.is_catch_all()) {
            continue;
        }
        if matrix.value.iter().zip(&row.pattern).any(against) {
            return true;
        }
        last = Some(row);
    }
    false
}

fn of_enable(case: &Case) -> Vec<&'static str> {
    let enable = case.enable;
    let column = case.matrix.value.contains(&enable);
    chosen([
        ("enable 1", enable == Net::ONE),
        ("enable 0", enable == Net::ZERO),
        ("enable X", enable == Net::UNDEF),
        ("enable a fresh cell", enable.is_cell() && !column),
        ("enable a column", enable.is_cell() && column),
    ])
}

/// Sizes with the enable added.
fn of_size(case: &Case) -> Vec<&'static str> {
    let added = usize::from(case.enable != Net::ONE);
    let columns = case.matrix.value.len() + added;
    let rows = case.matrix.rows.len() + added;
    chosen([
        ("over 8 columns", columns > 8),
        ("over 32 rows", rows > 32),
        ("16 columns", columns == COLUMNS_MAX),
        ("64 rows", rows == ROWS_MAX),
        ("8 rules in a row", case.matrix.rows.iter().any(|row| row.rules.len() == RULES_MAX)),
    ])
}
