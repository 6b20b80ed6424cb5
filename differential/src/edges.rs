//! Cases at the edges: peaks around the limit, trees past it, and the bounds of 01.

use std::collections::BTreeSet;

use crate::case::{CELL_MAX, COLUMNS_MAX, Case, Matrix, NODES_MAX, ROWS_MAX, RULES_MAX, Row, WIDTH_MAX};
use crate::generate::{Shape, cells, matrix, with_enable};
use crate::random::Random;
use crate::{Net, Trit};

const BITS: usize = COLUMNS_MAX;

/// Whole addresses, some with a shared rule, then a catch-all: large trees that fit.
pub fn decoder(random: &mut Random) -> Case {
    let bits = random.between(3, BITS - 1);
    let count = random.between(1, if bits > 8 { 24 } else { ROWS_MAX - 2 });
    let addresses = (0..count).map(|_| random.below(1 << bits)).collect::<Vec<_>>();
    let outputs = cells(random, count.div_ceil(2));
    let rows = addresses.iter().map(|&address| (address, random.pick(&outputs))).collect();
    let matrix = addressed(random, bits, rows);
    with_enable(random, "decoder", matrix)
}

/// Rows of whole addresses, bit 0 in column 0, and a catch-all without rules.
fn addressed(random: &mut Random, bits: usize, rows: Vec<(usize, Net)>) -> Matrix {
    let bit = |address: usize, place: usize| Trit::from(address >> place & 1 == 1);
    let pattern = |address: usize| (0..bits).map(|place| bit(address, place)).collect();
    let mut rows: Vec<Row> = rows.into_iter().map(|(address, rule)| Row::new(pattern(address), vec![rule])).collect();
    random.shuffle(&mut rows);
    rows.push(Row::new(vec![Trit::Undef; bits], vec![]));
    Matrix { value: cells(random, bits), rows }
}

/// A peak at the limit, one past it, or beside them.
pub fn peak(random: &mut Random) -> Case {
    let target = random.pick(&[NODES_MAX, NODES_MAX, NODES_MAX + 1, NODES_MAX + 1, NODES_MAX - 1, NODES_MAX + 2]);
    Case { family: "peak", matrix: with_peak(random, target), enable: Net::ONE, merge: None }
}

/// A decoder whose tests run from column 0 up, with as many branches as the peak asks for.
///
/// An even peak needs two equal arms: addresses 3 and 7 share their rule, so that behind the arms of the addresses
/// that end in 0 and in 01 the 27 nodes of those that end in 11 are written twice.
fn with_peak(random: &mut Random, target: usize) -> Matrix {
    const TWIN: usize = 2 * (BITS - 3) + 1;
    let even = target.is_multiple_of(2);
    let branches = if even { (target - 2 * TWIN - 2) / 2 } else { (target - 1) / 2 };
    let addresses = with_branches(random, branches, even);
    // 16 outputs of 511 branches fit the mux table, 17 don't.
    let outputs = random.pick(&[4, COLUMNS_MAX, COLUMNS_MAX + 1, addresses.len()]);
    let outputs: Vec<Net> = (20..).map(Net::cell).take(outputs).collect();
    let rule = |place: usize| outputs[place % outputs.len()];
    let mut rows: Vec<_> = addresses.iter().enumerate().map(|(place, &address)| (address, rule(place))).collect();
    if even {
        rows.extend([(0b0_11, outputs[0]), (0b1_11, outputs[0])]);
    }
    addressed(random, BITS, rows)
}

/// Addresses with so many different proper endings, each of them a branch. With `twins` none ends in 11, and the
/// branches on the way there are not counted.
fn with_branches(random: &mut Random, branches: usize, twins: bool) -> Vec<usize> {
    let mut seen = if twins { BTreeSet::from_iter([(0, 0), (1, 1)]) } else { BTreeSet::new() };
    let most = branches + seen.len();
    let mut addresses: Vec<usize> = Vec::new();
    while seen.len() < most {
        let address = next_address(random, &addresses);
        let added: Vec<_> = endings(address).filter(|ending| !seen.contains(ending)).collect();
        let on_the_way = twins && address & 0b11 == 0b11;
        if !on_the_way && !added.is_empty() && seen.len() + added.len() <= most {
            seen.extend(added);
            addresses.push(address);
        }
    }
    addresses
}

/// Any address, or one with the ending of another, which adds fewer branches.
fn next_address(random: &mut Random, addresses: &[usize]) -> usize {
    let any = random.below(1 << BITS);
    if addresses.is_empty() || random.chance(85) {
        return any;
    }
    let shared = (1 << random.below(BITS)) - 1;
    random.pick(addresses) & shared | any & !shared
}

/// Each proper ending, with its count of bits.
fn endings(address: usize) -> impl Iterator<Item = (usize, usize)> {
    (0..BITS).map(move |bits| (bits, address & ((1 << bits) - 1)))
}

/// Rows that look at two columns far apart: few rows, and every setting of the near ones has its own arm.
pub fn pairs(random: &mut Random) -> Case {
    let count = random.between(5, BITS / 2);
    let mut rows = Vec::new();
    for (place, rule) in cells(random, count).into_iter().enumerate() {
        let mut pattern = vec![Trit::Undef; 2 * count];
        pattern[place] = random.pick(&[Trit::Zero, Trit::One]);
        pattern[count + place] = random.pick(&[Trit::Zero, Trit::One]);
        rows.push(Row::new(pattern, vec![rule]));
    }
    rows.push(Row::new(vec![Trit::Undef; 2 * count], vec![]));
    let matrix = Matrix { value: cells(random, 2 * count), rows };
    let case = with_enable(random, "pairs", matrix);
    let full = 2 * count == COLUMNS_MAX;
    Case { enable: if full { Net::ONE } else { case.enable }, ..case }
}

/// A shape of so many rows, the catch-all counted; rows of many trits keep the tree small.
fn bound_shape(random: &mut Random, columns: usize, rows: usize) -> Shape {
    let near = random.pick(&[0, 10]);
    Shape { columns, rows: rows - 1, constants: near, repeats: near, undefs: 5, outputs: 12, rules: 1 }
}

/// 16 columns, 64 rows or 8 rules in a row, the enable counted.
pub fn bounds(random: &mut Random) -> Case {
    let which = random.below(3);
    let full = random.chance(50);
    let added = usize::from(!full);
    let (columns, rows) = match which {
        0 => (COLUMNS_MAX - added, random.between(1, 12)),
        1 => (random.between(1, 7), ROWS_MAX - added),
        _ => (random.between(1, 5), random.between(1, 6)),
    };
    let shape = bound_shape(random, columns, rows);
    let mut matrix = matrix(random, &shape);
    if which == 2 && !matrix.rows.is_empty() {
        fill_rules(random, &mut matrix, RULES_MAX);
    }
    let case = with_enable(random, "bounds", matrix);
    Case { enable: if full { Net::ONE } else { case.enable }, ..case }
}

/// 64 outputs or 65, the most bits of an emitted value and one more.
pub fn widths(random: &mut Random) -> Case {
    let columns = random.between(3, 5);
    let first = random.pick(&[0, 20, CELL_MAX - WIDTH_MAX as u32]);
    let past = random.below(2);
    let outputs: Vec<Net> = (first..).map(Net::cell).take(WIDTH_MAX + past).collect();
    let mut rows = Vec::new();
    for rules in outputs.chunks(RULES_MAX) {
        let pattern = (0..columns).map(|_| random.pick(&[Trit::Zero, Trit::One, Trit::Undef])).collect();
        rows.push(Row::new(pattern, rules.to_vec()));
    }
    rows.push(Row::new(vec![Trit::Undef; columns], vec![]));
    let matrix = Matrix { value: cells(random, columns), rows };
    with_enable(random, "widths", matrix)
}

/// 17 columns, 65 rows, 9 rules or cell 10,000, and the first two by way of the enable too.
pub fn past_bounds(random: &mut Random) -> Case {
    let which = random.below(8);
    let (columns, rows) = match which {
        0 => (COLUMNS_MAX + 1, 3),
        1 => (2, ROWS_MAX + 1),
        2 => (COLUMNS_MAX, random.between(1, 5)),
        3 => (random.between(1, 3), ROWS_MAX),
        _ => (random.between(1, 5), random.between(2, 6)),
    };
    let shape = bound_shape(random, columns, rows);
    let mut matrix = matrix(random, &shape);
    if which == 4 || which == 5 {
        fill_rules(random, &mut matrix, RULES_MAX + 1);
    }
    let mut case = with_enable(random, "past", matrix);
    if which > 5 {
        put_high_cell(random, &mut case);
    }
    case
}

/// Cell 10,000 as the enable, a rule or a column.
fn put_high_cell(random: &mut Random, case: &mut Case) {
    let high = Net::cell(CELL_MAX + 1);
    match random.below(3) {
        0 => case.enable = high,
        1 => case.matrix.rows[0].rules = vec![high],
        _ => case.matrix.value[0] = high,
    }
}

fn fill_rules(random: &mut Random, matrix: &mut Matrix, count: usize) {
    let rules = cells(random, count);
    let place = random.below(matrix.rows.len());
    matrix.rows[place].rules = Row::new(vec![], rules).rules;
}
