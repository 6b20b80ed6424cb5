//! 01 on what is handed in as numbers, entry by entry: matrices, trees, mux tables, updates. None of it is the port's.

use super::foreign::{Lent, Matrix, Row};
use super::store::{BRANCH, RUN};
use crate::case::{CELL_MAX, COLUMNS_MAX, Emission, FIRST_MUX, MUXES_MAX, NODES_MAX, ROWS_MAX, RULES_MAX, Tree};
use crate::random::Random;
use crate::refuse::{COLUMNS, FORM, NET, ROWS, RULES, SHAPE, lowest};
use crate::{Mux, Net, Trit, model};

/// The codes of the first cell, of the last that is no mux, and of the net of the last mux that there can be.
pub const FIRST_CELL: u16 = 3;
pub const LAST_CELL: u16 = FIRST_CELL + CELL_MAX as u16;
pub const LAST_NET: u16 = LAST_CELL + MUXES_MAX as u16;
/// Numbers to a mux: select, one arm, zero arm.
pub const MUX_RUN: usize = 3;
const TRITS: u8 = 3;

pub fn is_net(code: u16) -> bool {
    code <= LAST_NET
}

/// Whether the net may stand as a column or a bit: a constant, or a cell up to 9,999.
pub fn is_low(code: u16) -> bool {
    code <= LAST_CELL
}

/// Whether the net may be a rule: a cell up to 9,999.
pub fn is_name(code: u16) -> bool {
    (FIRST_CELL..=LAST_CELL).contains(&code)
}

/// A cell over 9,999, to be passed alone: the first, those around the last mux's net, and any that a code can name.
pub fn high(random: &mut Random) -> Net {
    let last = CELL_MAX + MUXES_MAX as u32;
    Net::cell(random.pick(&[CELL_MAX + 1, last, last + 1, u16::MAX.into(), 100_000, u32::MAX - u32::from(FIRST_CELL)]))
}

/// 12, or else 1 to 5, of a matrix by itself. In use are the slots below each count, and no more than there are.
pub fn of_matrix(matrix: &Matrix) -> Option<u8> {
    let value = &matrix.value[..matrix.columns.min(COLUMNS_MAX)];
    let rows = &matrix.rows[..matrix.count.min(ROWS_MAX)];
    if !value.iter().copied().all(is_net) || !rows.iter().all(is_row) {
        return Some(FORM);
    }
    lowest([
        (COLUMNS, matrix.columns > COLUMNS_MAX),
        (ROWS, matrix.count > ROWS_MAX),
        (SHAPE, rows.iter().any(|row| row.len != matrix.columns)),
        (NET, !value.iter().copied().all(is_low) || !rows.iter().flat_map(rules).all(is_name)),
        (RULES, rows.iter().any(|row| row.rules.count > RULES_MAX)),
    ])
}

/// Every trit and net codes one, and the cells among the rules strictly ascend.
fn is_row(row: &Row) -> bool {
    let trits = &row.pattern[..row.len.min(COLUMNS_MAX)];
    let cells: Vec<u16> = rules(row).filter(|&code| code >= FIRST_CELL).collect();
    trits.iter().all(|&trit| trit < TRITS) && rules(row).all(is_net) && cells.is_sorted_by(|a, b| a < b)
}

fn rules(row: &Row) -> impl Iterator<Item = u16> + '_ {
    row.rules.items[..row.rules.count.min(RULES_MAX)].iter().copied()
}

/// The tree whose root is at this place: the entries up to it read one after another, each branch taking the two trees
/// before it. None where 01 calls it malformed.
pub fn tree(store: &[u16], root: usize) -> Option<Tree> {
    let entries = (store.len() / RUN).min(NODES_MAX);
    if root >= entries {
        return None;
    }
    let mut before: Vec<(Tree, usize)> = Vec::new();
    for run in store.chunks_exact(RUN).take(root + 1) {
        let node = match run[0] {
            BRANCH => {
                let ((one, ones), (zero, zeros)) = (before.pop()?, before.pop()?);
                let fits = is_cell(run[1]) && usize::from(run[2]) == ones && run[3..].iter().all(|&number| number == 0);
                let test = fits.then(|| Net::cell(run[1].into()))?;
                (Tree::Branch { test, zero: zero.into(), one: one.into() }, zeros + ones + 1)
            }
            _ => (leaf(run)?, 1),
        };
        before.push(node);
    }
    let (tree, _) = before.pop().filter(|_| before.is_empty())?;
    tests_once(&tree, &mut Vec::new()).then_some(tree)
}

fn leaf(run: &[u16]) -> Option<Tree> {
    let count = usize::from(run[0]);
    let (rules, rest) = run[1..].split_at_checked(count)?;
    let fits = rules.iter().copied().all(is_cell) && rules.is_sorted_by(|a, b| a < b);
    let cells = || rules.iter().map(|&number| Net::cell(number.into())).collect();
    (fits && rest.iter().all(|&number| number == 0)).then(|| Tree::Leaf(cells()))
}

fn is_cell(number: u16) -> bool {
    u32::from(number) <= CELL_MAX
}

/// Whether no path tests a net twice, `path` being what is tested above.
fn tests_once(tree: &Tree, path: &mut Vec<Net>) -> bool {
    let Tree::Branch { test, zero, one } = tree else { return true };
    if path.contains(test) {
        return false;
    }
    path.push(*test);
    let once = tests_once(zero, path) && tests_once(one, path);
    path.pop();
    once
}

/// The entries that a table has, 8,192 at most.
pub fn entries(table: &[u16]) -> usize {
    (table.len() / MUX_RUN).min(MUXES_MAX)
}

/// The muxes in use, where the table has so many and each operand is a constant, a given cell or an earlier mux's.
pub fn muxes(table: &[u16], used: usize) -> Option<Vec<Mux>> {
    let muxes = table.chunks_exact(MUX_RUN).take(used).map(|run| [run[0], run[1], run[2]].map(net));
    let muxes: Vec<Mux> = muxes.map(|[select, one, zero]| Mux { select, one, zero }).collect();
    let driven = |place: usize, net: Net| net.number().is_none_or(|number| number < FIRST_MUX + place as u32);
    let formed = |(place, mux): (usize, &Mux)| [mux.select, mux.one, mux.zero].iter().all(|&net| driven(place, net));
    (used <= entries(table) && muxes.iter().enumerate().all(formed)).then_some(muxes)
}

/// Any number as a net; whether it codes one is asked elsewhere.
pub fn net(code: u16) -> Net {
    match code {
        0 => Net::ZERO,
        1 => Net::ONE,
        2 => Net::UNDEF,
        _ => Net::cell((code - FIRST_CELL).into()),
    }
}

/// The trit of the asked net; none is 12.
pub fn evaluate(table: &[u16], used: usize, trits: &[u8], asked: Net) -> Option<Trit> {
    let muxes = muxes(table, used)?;
    let given = &trits[..trits.len().min(FIRST_MUX as usize)];
    let undriven = asked.number().is_some_and(|number| number >= FIRST_MUX + muxes.len() as u32);
    if undriven || given.iter().any(|&trit| trit >= TRITS) {
        return None;
    }
    model::evaluate(&Emission { muxes, value: vec![asked] }, |cell| known(given, cell)).pop()
}

/// A cell past the end of the slice is unknown.
pub fn known(trits: &[u8], cell: u32) -> Trit {
    match trits.get(cell as usize) {
        Some(0) => Trit::Zero,
        Some(1) => Trit::One,
        _ => Trit::Undef,
    }
}

/// Each update's net and bits: as many as its width says, while there are any.
pub fn updates(lent: &Lent) -> Vec<(u16, Vec<u16>)> {
    let mut left = &lent.bits[..];
    let mut updates = Vec::new();
    for (place, &net) in lent.nets.iter().enumerate() {
        let width = lent.widths.get(place).copied().unwrap_or(0).min(left.len());
        let (bits, rest) = left.split_at(width);
        updates.push((net, bits.to_vec()));
        left = rest;
    }
    updates
}
