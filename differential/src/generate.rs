//! A seeded stream of cases: every kind of value, row, rule and enable, small and large.

use crate::case::{CELL_MAX, COLUMNS_MAX, Case, Matrix, ROWS_MAX, RULES_MAX, Row};
use crate::random::Random;
use crate::{Net, Trit, edges, merges};

/// Cases without end; the same seed gives the same ones.
pub struct Generator {
    random: Random,
}

/// What a random matrix is drawn from.
pub struct Shape {
    pub columns: usize,
    pub rows: usize,
    /// In a hundred: columns that are constants, columns that repeat another, trits that are X.
    pub constants: usize,
    pub repeats: usize,
    pub undefs: usize,
    /// How many nets the rules are drawn from, and the most of them in a row.
    pub outputs: usize,
    pub rules: usize,
}

impl Generator {
    pub fn new(seed: u64) -> Generator {
        Generator { random: Random::new(seed) }
    }
}

impl Iterator for Generator {
    type Item = Case;

    fn next(&mut self) -> Option<Case> {
        let random = &mut self.random;
        let case = match random.below(100) {
            0..22 => plain(random),
            22..33 => constants(random),
            33..46 => few_outputs(random),
            46..55 => merges::merged(random),
            55..61 => merges::at_bounds(random),
            61..66 => edges::decoder(random),
            66..74 => edges::peak(random),
            74..77 => edges::pairs(random),
            77..83 => edges::bounds(random),
            83..88 => edges::widths(random),
            _ => edges::past_bounds(random),
        };
        Some(case)
    }
}

/// Small far more often than large; `most` itself is reached.
fn size(random: &mut Random, most: usize) -> usize {
    let high = random.pick(&[3, 3, 5, 8, most]);
    random.between(0, high.min(most))
}

fn plain(random: &mut Random) -> Case {
    let shape = Shape {
        columns: size(random, COLUMNS_MAX - 1),
        rows: size(random, ROWS_MAX - 1),
        constants: random.pick(&[0, 0, 10, 20]),
        repeats: random.pick(&[0, 10, 30]),
        undefs: random.pick(&[10, 30, 50]),
        outputs: random.pick(&[2, 4, 12, 40]),
        rules: random.pick(&[1, 1, 2, RULES_MAX]),
    };
    let matrix = matrix(random, &shape);
    with_enable(random, "plain", matrix)
}

fn constants(random: &mut Random) -> Case {
    let shape = Shape {
        columns: random.between(1, 7),
        rows: size(random, 12),
        constants: 50,
        repeats: random.pick(&[0, 20]),
        undefs: random.pick(&[40, 60]),
        outputs: random.pick(&[2, 4, 12]),
        rules: random.pick(&[1, 2]),
    };
    let matrix = matrix(random, &shape);
    with_enable(random, "constants", matrix)
}

/// Few outputs make many equal arms, so peaks over sizes; few columns keep the walk short.
fn few_outputs(random: &mut Random) -> Case {
    let shape = Shape {
        columns: random.between(1, 9),
        rows: random.between(2, 14),
        constants: random.pick(&[0, 10]),
        repeats: random.pick(&[0, 10, 30]),
        undefs: random.pick(&[30, 50, 70]),
        outputs: random.pick(&[1, 2]),
        rules: 1,
    };
    let matrix = matrix(random, &shape);
    with_enable(random, "few", matrix)
}

/// Mostly low numbers, so that nets meet; now and then one of any length, the last included.
pub fn cell(random: &mut Random) -> Net {
    let most = random.pick(&[9, 20, 20, CELL_MAX as usize]);
    Net::cell(if random.chance(1) { CELL_MAX } else { random.between(0, most) as u32 })
}

pub fn cells(random: &mut Random, count: usize) -> Vec<Net> {
    let mut cells: Vec<Net> = Vec::new();
    while cells.len() < count {
        let next = cell(random);
        if !cells.contains(&next) {
            cells.push(next);
        }
    }
    cells
}

/// `shape.rows` rows and, nine times in ten, a catch-all after them.
pub fn matrix(random: &mut Random, shape: &Shape) -> Matrix {
    let value = value(random, shape);
    let mut outputs = cells(random, shape.outputs);
    if !value.is_empty() && random.chance(20) {
        outputs[0] = Some(random.pick(&value)).filter(|net| net.is_cell()).unwrap_or(outputs[0]);
    }
    let mut rows: Vec<Row> = Vec::new();
    for _ in 0..shape.rows {
        let pattern = match rows.last() {
            Some(last) if random.chance(6) => last.pattern.clone(),
            _ => pattern(random, &value, shape.undefs),
        };
        rows.push(Row::new(pattern, rules(random, &outputs, shape.rules)));
    }
    if random.chance(90) {
        rows.push(Row::new(vec![Trit::Undef; value.len()], rules(random, &outputs, shape.rules)));
    }
    Matrix { value, rows }
}

fn value(random: &mut Random, shape: &Shape) -> Vec<Net> {
    let mut value = cells(random, shape.columns);
    for column in 0..value.len() {
        if random.chance(shape.constants) {
            value[column] = random.pick(&[Net::ZERO, Net::ONE, Net::UNDEF]);
        } else if random.chance(shape.repeats) {
            value[column] = value[random.below(column + 1)];
        }
    }
    value
}

/// Against a constant a trit agrees more often than not, so that rows stay and rows go.
fn pattern(random: &mut Random, value: &[Net], undefs: usize) -> Vec<Trit> {
    if random.chance(3) {
        return vec![Trit::Undef; value.len()];
    }
    let trit = |net: &Net| match net.as_const() {
        _ if random.chance(undefs) => Trit::Undef,
        Some(trit) if random.chance(60) => trit,
        _ => random.pick(&[Trit::Zero, Trit::One]),
    };
    value.iter().map(trit).collect()
}

fn rules(random: &mut Random, outputs: &[Net], most: usize) -> Vec<Net> {
    let count = if random.chance(10) { 0 } else { random.between(1, most) };
    (0..count).map(|_| random.pick(outputs)).collect()
}

/// Every kind of enable: 1, 0, X, a cell that is also a column, a fresh cell. Under 0 and X all trees are leaves.
pub fn with_enable(random: &mut Random, family: &'static str, matrix: Matrix) -> Case {
    let columns: Vec<Net> = matrix.cells().collect();
    let enable = match random.below(100) {
        0..35 => Net::ONE,
        35..43 => Net::ZERO,
        43..51 => Net::UNDEF,
        51..75 if !columns.is_empty() => random.pick(&columns),
        _ => fresh(random, &columns),
    };
    Case { family, matrix, enable, merge: None }
}

fn fresh(random: &mut Random, columns: &[Net]) -> Net {
    loop {
        let net = cell(random);
        if !columns.contains(&net) {
            return net;
        }
    }
}
