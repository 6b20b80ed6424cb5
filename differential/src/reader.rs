//! 01's reader of printed matrices, which the original does not have.

use crate::case::{CELL_MAX, COLUMNS_MAX, Matrix, ROWS_MAX, RULES_MAX, Row};
use crate::{Net, Trit};

/// The matrix, or the first line that no printed matrix with the same earlier lines has.
pub fn read(text: &[u8]) -> Result<Matrix, usize> {
    let mut pieces: Vec<&[u8]> = text.split(|&byte| byte == b'\n').collect();
    let unfinished = pieces.pop().is_some_and(|piece| !piece.is_empty());
    let mut lines = pieces.iter().map(|piece| std::str::from_utf8(piece).ok());
    let value = lines.next().flatten().and_then(value_line).ok_or(1usize)?;
    let mut matrix = Matrix { value, rows: Vec::new() };
    for (row, line) in lines.enumerate() {
        let row = line.filter(|_| row < ROWS_MAX).and_then(|line| row_line(line, matrix.value.len()));
        matrix.rows.push(row.ok_or(matrix.rows.len() + 2)?);
    }
    if unfinished { Err(matrix.rows.len() + 2) } else { Ok(matrix) }
}

fn value_line(line: &str) -> Option<Vec<Net>> {
    let inside = line.strip_prefix('[')?.strip_suffix(" ]:")?;
    let mut value = nets(inside)?;
    value.reverse();
    (value.len() <= COLUMNS_MAX).then_some(value)
}

fn row_line(line: &str, columns: usize) -> Option<Row> {
    let (trits, rules) = line.strip_prefix("  ")?.split_once(" =>")?;
    let pattern = pattern(trits).filter(|pattern| pattern.len() == columns)?;
    if rules == " (empty)" {
        return Some(Row { pattern, rules: Vec::new() });
    }
    let rules = nets(rules).filter(|rules| (1..=RULES_MAX).contains(&rules.len()))?;
    let ascend = rules.windows(2).all(|pair| pair[0] < pair[1]);
    (ascend && rules[0].is_cell()).then_some(Row { pattern, rules })
}

/// Trits from the highest column, with `_` before every fourth.
fn pattern(trits: &str) -> Option<Vec<Trit>> {
    let mut pattern = Vec::new();
    for (place, byte) in trits.chars().enumerate() {
        match (place % 5, byte) {
            (4, '_') if place + 1 < trits.len() => (),
            (4, _) => return None,
            (_, trit) => pattern.push(Trit::from_char(trit).ok()?),
        }
    }
    pattern.reverse();
    Some(pattern)
}

/// A space and a net, any number of times.
fn nets(text: &str) -> Option<Vec<Net>> {
    if text.is_empty() {
        return Some(Vec::new());
    }
    text.strip_prefix(' ')?.split(' ').map(net).collect()
}

pub fn net(text: &str) -> Option<Net> {
    let Some(digits) = text.strip_prefix('%') else {
        return text.parse::<Trit>().ok().map(Net::from);
    };
    let number: u32 = digits.parse().ok()?;
    (number <= CELL_MAX && number.to_string() == digits).then_some(Net::cell(number))
}
