//! Matrices that the original's types cannot hold: numbers that code nothing, rules out of order, counts that lie.

use super::compare::{Asked, Held};
use super::flat::{CLEAN, codes, flat};
use super::foreign::{self, Answered, Dispatched, Made, Matrix, OUTPUTS_MAX, Outputs};
use super::handed::{self, LAST_NET};
use super::store::RUN;
use crate::Net;
use crate::case::{self, COLUMNS_MAX, ROWS_MAX};
use crate::random::Random;
use crate::refuse::FORM;

pub const SPOILED: &str = "spoiled matrix";
pub const MISSHAPEN: &str = "misshapen matrix";
pub const LISTS: &str = "spoiled nets, trits or rules";

const NO_TRIT: u8 = 3;
const NO_NET: u16 = LAST_NET + 1;

pub fn hold(asked: &mut Asked) -> Held {
    of_spoiled(asked)?;
    of_misshapen(asked)?;
    of_lists(asked)
}

/// A number in use that codes nothing, or rules that don't ascend: 12 of every call, whatever else is wrong.
fn of_spoiled(asked: &mut Asked) -> Held {
    let case = &asked.told.case;
    let good = flat(&case.matrix, asked.past);
    let mut given = good;
    if !spoil(asked.random, &mut given) {
        return Ok(());
    }
    let enable = case.enable.code();
    let mut store = [1; 2 * RUN];
    let dispatched = foreign::dispatch(given, enable, &mut store) == Dispatched { no: FORM, root: 0, size: 0 };
    asked.hold(SPOILED, dispatched && store == [0; 2 * RUN])?;
    let refused = Made { no: FORM, matrix: given };
    let pattern = vec![0; given.columns];
    let equal = match asked.random.below(8) {
        0 => foreign::add(given, &pattern, &[]) == refused,
        1 => foreign::add_enable(given, enable) == refused,
        2 => foreign::merge(given, enable, good) == refused,
        3 => foreign::merge(good, enable, given) == Made { no: FORM, matrix: good },
        _ => refuses(asked.random, given, FORM),
    };
    asked.hold(SPOILED, equal)
}

/// One of the calls that take a matrix and nothing else that could be refused.
fn refuses(random: &mut Random, given: Matrix, no: u8) -> bool {
    let mut out = [1; RUN];
    match random.below(4) {
        0 => foreign::normalize(given) == Made { no, matrix: given },
        1 => foreign::assume(given, Net::ZERO.code(), 0) == Made { no, matrix: given },
        2 => foreign::outputs(given) == Outputs { no, nets: [0; OUTPUTS_MAX], count: 0 },
        _ => foreign::print(given, &mut out) == Answered { no, value: 0 } && out == [1; RUN],
    }
}

/// Spoils one thing in use; false where nothing is.
fn spoil(random: &mut Random, matrix: &mut Matrix) -> bool {
    let (columns, rows) = (matrix.columns.min(COLUMNS_MAX), matrix.count.min(ROWS_MAX));
    let row = (rows > 0).then(|| &mut matrix.rows[random.below(rows)]);
    match row {
        Some(row) if row.rules.count > 1 && random.chance(50) => row.rules.items.swap(0, 1),
        Some(row) if row.rules.count > 0 && random.chance(50) => row.rules.items[0] = NO_NET,
        Some(row) if columns > 0 && random.chance(50) => row.pattern[random.below(columns)] = NO_TRIT,
        _ if columns > 0 => matrix.value[random.below(columns)] = NO_NET,
        _ => return false,
    }
    true
}

/// What is handed to `new` or `add` beside the matrix: all of a slice is in use.
fn of_lists(asked: &mut Asked) -> Held {
    let matrix = &asked.told.case.matrix;
    let given = flat(matrix, asked.past);
    let (mut nets, mut pattern) = (codes(&matrix.value), vec![0; matrix.value.len()]);
    let place = asked.random.below(nets.len() + 1);
    let made = match asked.random.below(3) {
        0 => {
            nets.insert(place, NO_NET);
            let blank = flat(&case::Matrix::default(), CLEAN);
            return asked.hold(LISTS, foreign::new(&nets) == Made { no: FORM, matrix: blank });
        }
        1 => {
            pattern.insert(place, NO_TRIT);
            foreign::add(given, &pattern, &[])
        }
        _ => foreign::add(given, &pattern, &[0, NO_NET, 3]),
    };
    asked.hold(LISTS, made == Made { no: FORM, matrix: given })
}

/// One count or number changed, to anything: the number that 01 gives, where it gives one.
fn of_misshapen(asked: &mut Asked) -> Held {
    let mut given = flat(&asked.told.case.matrix, asked.random.pick(&[CLEAN, asked.past]));
    change(asked.random, &mut given);
    match handed::of_matrix(&given) {
        Some(no) => {
            let equal = refuses(asked.random, given, no);
            asked.hold(MISSHAPEN, equal)
        }
        None => Ok(()),
    }
}

fn change(random: &mut Random, matrix: &mut Matrix) {
    let any = random.draw();
    let count = random.pick(&[0, 1, RUN, COLUMNS_MAX, COLUMNS_MAX + 1, ROWS_MAX, ROWS_MAX + 1, usize::MAX]);
    let rows = matrix.count.clamp(1, ROWS_MAX);
    let row = &mut matrix.rows[random.below(rows)];
    match random.below(7) {
        0 => matrix.columns = count,
        1 => matrix.count = count,
        2 => row.len = count,
        3 => row.rules.count = count,
        4 => row.rules.items[random.below(RUN - 1)] = any as u16 % (NO_NET + 2),
        5 => row.pattern[random.below(COLUMNS_MAX)] = any as u8,
        _ => matrix.value[random.below(COLUMNS_MAX)] = any as u16 % (NO_NET + 2),
    }
}
