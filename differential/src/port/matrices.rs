//! The operations on matrices, against the original's.

use super::compare::{Asked, Held};
use super::flat::{CLEAN, codes, flat, flat_row, slots, trit, trits};
use super::foreign::{self, Made, Outputs};
use super::handed;
use crate::case::{self, CELL_MAX, Case, Merge, Row};
use crate::random::Random;
use crate::{Net, Trit, merges, original, questions, refuse};

pub const NEW: &str = "new";
pub const ADD: &str = "add";
pub const ADD_REFUSED: &str = "add, refused";
pub const ASSUME: &str = "assume";
pub const OUTPUTS: &str = "outputs";
pub const MERGE: &str = "merge";
pub const ADD_ENABLE: &str = "add_enable";
pub const NORMALIZE: &str = "normalize";

pub fn hold(asked: &mut Asked) -> Held {
    of_merges(asked)?;
    of_building(asked)?;
    of_enable(asked)?;
    of_assume(asked)?;
    of_outputs(asked)
}

/// A refused call hands back the matrix that it was handed; any other gives the original's.
fn wanted(refused: Option<u8>, given: foreign::Matrix, made: impl FnOnce() -> case::Matrix) -> Made {
    match refused {
        Some(no) => Made { no, matrix: given },
        None => Made { no: 0, matrix: flat(&made(), CLEAN) },
    }
}

/// The merge that made the matrix, and one of the matrix with a small child.
fn of_merges(asked: &mut Asked) -> Held {
    let case = &asked.told.case;
    if let Some(merge) = &case.merge {
        of_merge(asked, merge)?;
    }
    let mut merge = merges::merge_into(asked.random, case.matrix.clone());
    if asked.random.chance(2) {
        merge.at = handed::high(asked.random);
    }
    of_merge(asked, &merge)
}

fn of_merge(asked: &mut Asked, merge: &Merge) -> Held {
    let (parent, child) = (flat(&merge.parent, asked.past), flat(&merge.child, asked.past));
    let made = original::merge(merge);
    let wanted = wanted(refuse::of_merge(merge, &made), parent, || made);
    asked.hold(MERGE, foreign::merge(parent, merge.at.code(), child) == wanted)
}

/// The matrix from nothing, a row at a time; a row that is refused is left out.
fn of_building(asked: &mut Asked) -> Held {
    let matrix = &asked.told.case.matrix;
    let refused = refuse::of_new(&matrix.value);
    let mut loose = case::Matrix { value: matrix.value.clone(), rows: Vec::new() };
    let new = foreign::new(&codes(&matrix.value));
    asked.hold(NEW, new == wanted(refused, flat(&case::Matrix::default(), CLEAN), || original::built(&loose)))?;
    if refused.is_some() {
        return Ok(());
    }
    let (mut built, mut made) = (loose.clone(), new.matrix);
    for row in &matrix.rows {
        let given = loosened(asked.random, row);
        made = of_row(asked, made, &mut built, row, &given)?;
        if built.rows.len() > loose.rows.len() {
            loose.rows.push(given);
        }
    }
    asked.hold(ADD, made == flat(&original::built(&loose), CLEAN))?;
    of_last_row(asked)
}

/// One row added to what is built, its rules as given: it stands where the rows ended, and nothing else changes.
fn of_row(
    asked: &mut Asked,
    before: foreign::Matrix,
    built: &mut case::Matrix,
    row: &Row,
    given: &Row,
) -> Result<foreign::Matrix, &'static str> {
    let made = foreign::add(before, &trits(&given.pattern), &codes(&given.rules));
    if let Some(no) = refuse::of_add(built, given) {
        asked.hold(ADD_REFUSED, made == Made { no, matrix: before })?;
        return Ok(before);
    }
    let mut matrix = before;
    matrix.rows[before.count] = flat_row(row, CLEAN);
    matrix.count += 1;
    built.rows.push(row.clone());
    asked.hold(ADD, made == Made { no: 0, matrix })?;
    Ok(matrix)
}

/// The same rules in another order, some twice.
fn loosened(random: &mut Random, row: &Row) -> Row {
    let mut rules = row.rules.clone();
    for _ in 0..random.below(3) {
        rules.extend(row.rules.first().map(|_| random.pick(&row.rules)));
    }
    random.shuffle(&mut rules);
    Row { pattern: row.pattern.clone(), rules }
}

/// A row added to the whole matrix as it is handed in: like its last, and now and then of another length or with a
/// constant among its rules. Where the original panics, the number is 3 or a lower one.
fn of_last_row(asked: &mut Asked) -> Held {
    let matrix = &asked.told.case.matrix;
    let last = matrix.rows.last().cloned().unwrap_or(Row::new(vec![Trit::Undef; matrix.value.len()], vec![]));
    let mut row = loosened(asked.random, &last);
    match asked.random.below(50) {
        0 => row.pattern.push(Trit::One),
        1 => drop(row.pattern.pop()),
        2 => row.rules.push(asked.random.pick(&[Net::ZERO, Net::ONE, Net::UNDEF, Net::cell(CELL_MAX + 1)])),
        _ => (),
    }
    let given = flat(matrix, asked.past);
    let added = original::added(matrix, &row);
    let refused = refuse::of_add(matrix, &row);
    let made = foreign::add(given, &trits(&row.pattern), &codes(&row.rules));
    match (refused, added) {
        (None, Some(added)) => asked.hold(ADD, made == Made { no: 0, matrix: flat(&added, CLEAN) }),
        (Some(no), added) => {
            let panics = added.is_some() || no <= refuse::SHAPE;
            asked.hold(ADD_REFUSED, panics && made == Made { no, matrix: given })
        }
        (None, None) => asked.hold(ADD_REFUSED, false),
    }
}

fn of_enable(asked: &mut Asked) -> Held {
    let case = &asked.told.case;
    let given = flat(&case.matrix, asked.past);
    let enabled = foreign::add_enable(given, case.enable.code());
    asked.hold(ADD_ENABLE, enabled == wanted(refuse::of_enable(case), given, || original::enabled(case)))?;
    if asked.random.chance(2) {
        let high = Case { enable: handed::high(asked.random), ..case.clone() };
        let no = refuse::of_enable(&high).ok_or(ADD_ENABLE)?;
        asked.hold(ADD_ENABLE, foreign::add_enable(given, high.enable.code()) == Made { no, matrix: given })?;
    }
    let normal = wanted(refuse::of_matrix(&case.matrix), given, || original::normalize(&case.matrix));
    asked.hold(NORMALIZE, foreign::normalize(given) == normal)?;
    if enabled.no != 0 {
        return Ok(());
    }
    let normal = wanted(None, enabled.matrix, || original::normalized(case));
    asked.hold(NORMALIZE, foreign::normalize(enabled.matrix) == normal)
}

/// An assumption, the matrix normalized after it, and a value that is no trit.
fn of_assume(asked: &mut Asked) -> Held {
    let case = &asked.told.case;
    let (mut target, value) = questions::assumption(asked.random, case);
    if asked.random.chance(2) {
        target = handed::high(asked.random);
    }
    let given = flat(&case.matrix, asked.past);
    let refused = refuse::of_assume(&case.matrix, target);
    let made = foreign::assume(given, target.code(), trit(value));
    let assumed = original::assume(&case.matrix, target, value);
    asked.hold(ASSUME, made == wanted(refused, given, || assumed.clone()))?;
    let no_trit = foreign::assume(given, target.code(), 3 + asked.random.below(253) as u8);
    asked.hold(ASSUME, no_trit == Made { no: refuse::FORM, matrix: given })?;
    if refused.is_some() {
        return Ok(());
    }
    let normal = wanted(None, given, || original::normalize(&assumed));
    asked.hold(NORMALIZE, foreign::normalize(made.matrix) == normal)
}

fn of_outputs(asked: &mut Asked) -> Held {
    let matrix = &asked.told.case.matrix;
    let outputs = match refuse::of_matrix(matrix) {
        Some(no) => Outputs { no, nets: slots([].into_iter(), 0), count: 0 },
        None => {
            let nets = codes(&original::outputs(matrix));
            Outputs { no: 0, nets: slots(nets.iter().copied(), 0), count: nets.len() }
        }
    };
    asked.hold(OUTPUTS, foreign::outputs(flat(matrix, asked.past)) == outputs)
}
