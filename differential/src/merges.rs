//! Merged matrices, and merges that just fit or just don't.

use crate::case::{COLUMNS_MAX, Case, Matrix, Merge, ROWS_MAX, RULES_MAX, Row};
use crate::generate::{Shape, cell, cells, matrix, with_enable};
use crate::random::Random;
use crate::{Net, Trit, original};

/// One child or two, mostly at a net that the parent names.
pub fn merged(random: &mut Random) -> Case {
    let mut parent = small_part(random);
    if random.chance(30) {
        let merge = merge_into(random, parent);
        parent = original::merge(&merge);
    }
    let merge = merge_into(random, parent);
    made_by(random, merge)
}

fn made_by(random: &mut Random, merge: Merge) -> Case {
    let case = with_enable(random, "merged", original::merge(&merge));
    Case { merge: Some(merge), ..case }
}

/// A small child for the parent, mostly at a net that it names.
pub fn merge_into(random: &mut Random, parent: Matrix) -> Merge {
    let named = original::outputs(&parent);
    let at = match named.is_empty() || random.chance(5) {
        true if random.chance(40) => random.pick(&[Net::ZERO, Net::ONE, Net::UNDEF]),
        true => cell(random),
        false => random.pick(&named),
    };
    Merge { parent, at, child: small_part(random) }
}

fn small_part(random: &mut Random) -> Matrix {
    let shape = Shape {
        columns: random.between(0, 4),
        rows: random.between(0, 5),
        constants: random.pick(&[0, 0, 15]),
        repeats: random.pick(&[0, 20]),
        undefs: random.pick(&[20, 40]),
        outputs: random.pick(&[2, 6]),
        rules: random.pick(&[1, 2, 4]),
    };
    matrix(random, &shape)
}

/// Columns, rows or rules of the result at their bound or one past it.
pub fn at_bounds(random: &mut Random) -> Case {
    let past = random.below(2);
    let merge = match random.below(3) {
        0 => {
            let columns = random.between(1, COLUMNS_MAX - 1);
            let (parent, child) = ((columns, 2, 1), (COLUMNS_MAX + past - columns, 2, 1));
            named_parts(random, parent, child)
        }
        1 => {
            let (named, under) = if past == 0 { (7, (ROWS_MAX - 1) / 7) } else { (8, ROWS_MAX / 8) };
            named_parts(random, (3, named, 1), (3, under - 1, 1))
        }
        _ => {
            let rules = random.between(1, RULES_MAX - 1);
            named_parts(random, (2, 2, rules), (2, 2, RULES_MAX + past - rules))
        }
    };
    let case = made_by(random, merge);
    Case { enable: Net::ONE, ..case }
}

/// Parent and child of these columns, rows and rules a row; every row of the parent names the point.
fn named_parts(random: &mut Random, parent: (usize, usize, usize), child: (usize, usize, usize)) -> Merge {
    let nets = cells(random, parent.2 + child.2);
    let (named, under) = nets.split_at(parent.2);
    let (parent, child) = (part(random, parent, named), part(random, child, under));
    Merge { parent, at: named[0], child }
}

/// Rows that all name the same rules, and a catch-all without any.
fn part(random: &mut Random, (columns, rows, _): (usize, usize, usize), rules: &[Net]) -> Matrix {
    let value = cells(random, columns);
    let trit = |random: &mut Random| random.pick(&[Trit::Zero, Trit::One, Trit::Undef]);
    let pattern = |random: &mut Random| (0..columns).map(|_| trit(random)).collect();
    let mut rows: Vec<Row> = (0..rows).map(|_| Row::new(pattern(random), rules.to_vec())).collect();
    rows.push(Row::new(vec![Trit::Undef; columns], vec![]));
    Matrix { value, rows }
}
