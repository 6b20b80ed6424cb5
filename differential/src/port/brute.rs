//! Brute force: every output at every setting of 0, 1 and X, where matrix and enable have few cells.

use super::compare::{Asked, Held};
use super::values::{self, Table, UNDEF};
use crate::case::Matrix;
use crate::small;
use crate::{Net, Trit};

/// Counted beside the subjects: the cases gone through, and their settings with an X.
pub const CASES: &str = "cases at every setting";
pub const UNKNOWN: &str = "partly unknown settings";

pub const KNOWN: &str = "every 0/1 setting";
pub const FILLING: &str = "every filling";

/// The most distinct cells of matrix and enable together; every small case has at most three.
pub const CELLS_MAX: usize = 4;

/// A trit for each cell, and what the port evaluates every output to.
struct Tried {
    setting: Vec<u8>,
    outputs: Vec<Trit>,
}

/// At 0 and 1 an output is 1 where the first matching row names it; known at an X, it is the same at every filling.
pub fn hold(asked: &mut Asked, table: &Table, enabled: &Matrix, outputs: &[Net]) -> Held {
    let cells = cells(enabled);
    if cells.len() > CELLS_MAX {
        return Ok(());
    }
    asked.count(CASES);
    let mut known = Vec::new();
    let mut unknown = Vec::new();
    for setting in small::lists(cells.len(), &[0, 1, UNDEF]) {
        let trits = laid(&cells, &setting);
        let tried = Tried { outputs: values::of_setting(asked, table, &trits)?, setting };
        if tried.setting.contains(&UNDEF) {
            unknown.push(tried);
        } else {
            asked.hold(KNOWN, tried.outputs == values::by_first_row(enabled, outputs, &trits))?;
            known.push(tried);
        }
    }
    for before in &unknown {
        asked.count(UNKNOWN);
        for after in known.iter().filter(|after| fills(&before.setting, &after.setting)) {
            asked.hold(FILLING, keeps(&before.outputs, &after.outputs))?;
        }
    }
    Ok(())
}

/// The cells of the value with the enable, each once.
fn cells(enabled: &Matrix) -> Vec<usize> {
    let mut cells: Vec<usize> = enabled.cells().filter_map(|net| net.number()).map(|number| number as usize).collect();
    cells.sort();
    cells.dedup();
    cells
}

/// Trits by cell number; a cell that is no column is unknown, so an output that hangs on it shows.
fn laid(cells: &[usize], setting: &[u8]) -> Vec<u8> {
    let mut trits = vec![UNDEF; cells.last().map_or(0, |last| last + 1)];
    cells.iter().zip(setting).for_each(|(&cell, &trit)| trits[cell] = trit);
    trits
}

/// Whether the second setting differs from the first in unknown cells only.
fn fills(before: &[u8], after: &[u8]) -> bool {
    before.iter().zip(after).all(|(before, after)| *before == UNDEF || before == after)
}

/// Whether every output that is known before is the same after.
pub fn keeps(before: &[Trit], after: &[Trit]) -> bool {
    before.iter().zip(after).all(|(before, after)| *before == Trit::Undef || before == after)
}
