//! Matrices as the port holds them: slots and counts, numbers for nets and trits.

use super::foreign::{Matrix, Row, Rules};
use crate::case::{self, COLUMNS_MAX, RULES_MAX};
use crate::{Net, Trit};

/// What stands in the slots past every count: nothing in a matrix that a call makes, anything in one handed in.
#[derive(Clone, Copy)]
pub struct Past(pub u8);

pub const CLEAN: Past = Past(0);

impl Past {
    fn wide(self) -> u16 {
        u16::from_ne_bytes([self.0; 2])
    }

    fn count(self) -> usize {
        usize::from(self.wide())
    }

    fn row(self) -> Row {
        let rules = Rules { items: [self.wide(); RULES_MAX], count: self.count() };
        Row { pattern: [self.0; COLUMNS_MAX], len: self.count(), rules }
    }
}

/// Counts are kept where they are too large; the slots that there are hold the first of each.
pub fn flat(matrix: &case::Matrix, past: Past) -> Matrix {
    let rows = matrix.rows.iter().map(|row| flat_row(row, past));
    Matrix {
        value: slots(matrix.value.iter().copied().map(code), past.wide()),
        columns: matrix.value.len(),
        rows: slots(rows, past.row()),
        count: matrix.rows.len(),
    }
}

pub fn flat_row(row: &case::Row, past: Past) -> Row {
    let items = slots(row.rules.iter().copied().map(code), past.wide());
    Row {
        pattern: slots(row.pattern.iter().copied().map(trit), past.0),
        len: row.pattern.len(),
        rules: Rules { items, count: row.rules.len() },
    }
}

pub fn slots<T: Copy, const N: usize>(items: impl Iterator<Item = T>, past: T) -> [T; N] {
    let mut slots = [past; N];
    slots.iter_mut().zip(items).for_each(|(slot, item)| *slot = item);
    slots
}

pub fn code(net: Net) -> u16 {
    u16::try_from(net.code()).expect("cases have no cell over 65,532")
}

pub fn codes(nets: &[Net]) -> Vec<u16> {
    nets.iter().copied().map(code).collect()
}

pub fn trit(trit: Trit) -> u8 {
    match trit {
        Trit::Zero => 0,
        Trit::One => 1,
        Trit::Undef => 2,
    }
}

pub fn trits(pattern: &[Trit]) -> Vec<u8> {
    pattern.iter().copied().map(trit).collect()
}
