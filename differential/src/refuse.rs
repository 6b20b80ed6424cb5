//! 01's refusal numbers for matrices, dispatch and emission: the lowest that applies.

use crate::case::{
    CELL_MAX, COLUMNS_MAX, Case, MUXES_MAX, Matrix, Merge, NODES_MAX, ROWS_MAX, RULES_MAX, Row, Tree, WIDTH_MAX,
};
use crate::{Net, model};

pub const COLUMNS: u8 = 1;
pub const ROWS: u8 = 2;
pub const SHAPE: u8 = 3;
pub const NET: u8 = 4;
pub const RULES: u8 = 5;
pub const CATCH: u8 = 6;
pub const NODES: u8 = 7;
pub const WIDTH: u8 = 8;
pub const OVERLAP: u8 = 9;
pub const ROOM: u8 = 10;
pub const LINE: u8 = 11;
pub const FORM: u8 = 12;

/// 1 to 5, of a matrix as it stands.
pub fn of_matrix(matrix: &Matrix) -> Option<u8> {
    let columns = matrix.value.len();
    let rows = &matrix.rows;
    let nets = matrix.value.iter().chain(rows.iter().flat_map(|row| &row.rules));
    let holds = [
        (COLUMNS, columns > COLUMNS_MAX),
        (ROWS, rows.len() > ROWS_MAX),
        (SHAPE, rows.iter().any(|row| row.pattern.len() != columns)),
        (NET, nets.copied().any(too_high) || rows.iter().any(|row| row.rules.iter().any(|net| !net.is_cell()))),
        (RULES, rows.iter().any(|row| row.rules.len() > RULES_MAX)),
    ];
    lowest(holds)
}

/// 1 and 4, of the nets of a new matrix.
pub fn of_new(value: &[Net]) -> Option<u8> {
    lowest([(COLUMNS, value.len() > COLUMNS_MAX), (NET, value.iter().copied().any(too_high))])
}

/// 1 to 5, of a row to be added, whose rules come in any order and repeat.
pub fn of_add(matrix: &Matrix, row: &Row) -> Option<u8> {
    let rules = Row::new(vec![], row.rules.clone()).rules;
    let holds = [
        (ROWS, matrix.rows.len() == ROWS_MAX),
        (SHAPE, row.pattern.len() != matrix.value.len()),
        (NET, !rules.iter().all(|&net| net.is_cell() && !too_high(net))),
        (RULES, rules.len() > RULES_MAX),
    ];
    [of_matrix(matrix), lowest(holds)].into_iter().flatten().min()
}

/// 1 to 5, of assuming something of the net.
pub fn of_assume(matrix: &Matrix, target: Net) -> Option<u8> {
    [of_matrix(matrix), too_high(target).then_some(NET)].into_iter().flatten().min()
}

/// 1 to 5, of a merge: parent, child, point and the matrix to be made.
pub fn of_merge(merge: &Merge, result: &Matrix) -> Option<u8> {
    let point = (!merge.at.is_cell() || too_high(merge.at)).then_some(NET);
    [of_matrix(&merge.parent), of_matrix(&merge.child), of_matrix(result), point].into_iter().flatten().min()
}

/// 1 to 5, of adding the enable.
pub fn of_enable(case: &Case) -> Option<u8> {
    let added = usize::from(case.enable != Net::ONE);
    let holds = [
        (COLUMNS, case.matrix.value.len() + added > COLUMNS_MAX),
        (ROWS, case.matrix.rows.len() + added > ROWS_MAX),
        (NET, too_high(case.enable)),
    ];
    [of_matrix(&case.matrix), lowest(holds)].into_iter().flatten().min()
}

/// Dispatch of matrix and enable into a store of 1,024: the tree, or 1 to 7.
pub fn dispatch(case: &Case) -> Result<model::Grown, u8> {
    let catch = (!case.matrix.ends_in_catch_all()).then_some(CATCH);
    match [of_enable(case), catch].into_iter().flatten().min() {
        Some(number) => Err(number),
        None => model::grow(case, NODES_MAX).ok_or(NODES),
    }
}

/// 8 and 10, of emitting so many bits into an empty table of 8,192.
pub fn of_emission(tree: &Tree, width: usize) -> Option<u8> {
    let branches = tree.size() / 2;
    lowest([(WIDTH, width > WIDTH_MAX), (ROOM, branches * width > MUXES_MAX)])
}

fn too_high(net: Net) -> bool {
    net.number().is_some_and(|number| number > CELL_MAX)
}

/// The lowest number of those that hold.
pub fn lowest<const N: usize>(holds: [(u8, bool); N]) -> Option<u8> {
    holds.into_iter().filter_map(|(number, holds)| holds.then_some(number)).min()
}
