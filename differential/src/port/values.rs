//! The evaluator over the muxes of a one-hot emission: against the model's, and against the matrix's first matching row.

use super::brute;
use super::compare::{Asked, Held};
use super::flat::{codes, trit};
use super::foreign::{self, Answered};
use super::handed::{self, MUX_RUN};
use super::store::{self, RUN};
use super::tables;
use crate::case::{Case, Emission, FIRST_MUX, Matrix, Row, Tree};
use crate::random::Random;
use crate::refuse::{self, FORM};
use crate::{Net, Trit, model, original};

pub const TABLE: &str = "evaluate, the table emitted";
pub const MODEL: &str = "evaluate";
pub const FIRST_ROW: &str = "evaluate, first matching row";
pub const FILLING: &str = "evaluate, a filling";
pub const ANY: &str = "evaluate, any table";
pub const REFUSED: &str = "evaluate, refused";

pub const UNDEF: u8 = 2;
const GIVEN: usize = FIRST_MUX as usize;

/// The port's muxes for a case's outputs.
pub struct Table {
    numbers: Vec<u16>,
    used: usize,
    emission: Emission,
}

/// Every output at every setting of few cells, and of any number at settings drawn: one of 0 and 1, one that is partly
/// unknown, and a filling of that one.
pub fn hold(asked: &mut Asked, tree: &Tree) -> Held {
    let case = &asked.told.case;
    let outputs = original::outputs(&case.matrix);
    let Some(table) = table(asked, tree, &outputs)? else { return Ok(()) };
    let enabled = original::enabled(case);
    brute::hold(asked, &table, &enabled, &outputs)?;
    let cells = cells(case);
    let known = setting(asked.random, cells);
    let first = of_setting(asked, &table, &known)?;
    asked.hold(FIRST_ROW, first == by_first_row(&enabled, &outputs, &known))?;
    let partly = partly(asked.random, &known);
    let unknown = of_setting(asked, &table, &partly)?;
    let filling = filling(asked.random, &partly, cells);
    let filled = of_setting(asked, &table, &filling)?;
    asked.hold(FIRST_ROW, filled == by_first_row(&enabled, &outputs, &filling))?;
    asked.hold(FILLING, brute::keeps(&unknown, &filled))?;
    of_any(asked, &partly)?;
    of_others(asked, &table, partly)
}

/// None where 01 refuses the emission. The numbers are those that the port wrote, and must be a table with every output.
fn table(asked: &mut Asked, tree: &Tree, outputs: &[Net]) -> Result<Option<Table>, &'static str> {
    if refuse::of_emission(tree, outputs.len()).is_some() {
        return Ok(None);
    }
    let store = store::numbers(tree);
    let mut numbers = vec![0; MUX_RUN * (tree.size() / 2 * outputs.len())];
    let emitted = foreign::one_hot(&store, store.len() / RUN - 1, &codes(outputs), 0, &mut numbers);
    let muxes = handed::muxes(&numbers, emitted.used);
    asked.hold(TABLE, emitted.no == 0 && emitted.width == outputs.len() && muxes.is_some())?;
    let value = emitted.nets[..emitted.width].iter().copied().map(handed::net).collect();
    Ok(muxes.map(|muxes| Table { numbers, used: emitted.used, emission: Emission { muxes, value } }))
}

/// One more than the highest cell of the value and the enable.
fn cells(case: &Case) -> usize {
    let nets = case.matrix.value.iter().chain([&case.enable]);
    nets.filter_map(|net| net.number()).max().map_or(0, |most| most as usize + 1)
}

/// Bits for so many cells at least, now and then for all of them and with something after them that is not read.
fn setting(random: &mut Random, cells: usize) -> Vec<u8> {
    let length = match random.below(20) {
        0 => GIVEN + random.below(3),
        1 => GIVEN.min(cells + random.below(20)),
        _ => cells,
    };
    (0..length).map(|place| if place < GIVEN { random.below(2) as u8 } else { u8::MAX }).collect()
}

/// Some bits unknown, each by itself or all from one place on, which may be the end of the slice.
fn partly(random: &mut Random, known: &[u8]) -> Vec<u8> {
    let percent = random.pick(&[10, 50, 90]);
    let mut partly = known.to_vec();
    partly.iter_mut().take(GIVEN).filter(|_| random.chance(percent)).for_each(|trit| *trit = UNDEF);
    if random.chance(20) {
        partly.truncate(random.below(known.len() + 1));
    }
    partly
}

/// Every cell known; those that were known before as they were.
fn filling(random: &mut Random, partly: &[u8], cells: usize) -> Vec<u8> {
    let length = partly.len().max(cells);
    let filled = |place: usize| match partly.get(place) {
        Some(&trit) if trit != UNDEF => trit,
        _ => random.below(2) as u8,
    };
    (0..length).map(filled).collect()
}

/// Each output's trit as the port evaluates it, held against the model's.
pub fn of_setting(asked: &mut Asked, table: &Table, trits: &[u8]) -> Result<Vec<Trit>, &'static str> {
    let wanted = model::evaluate(&table.emission, |cell| handed::known(trits, cell));
    let mut given = Vec::new();
    for (&net, &wanted) in table.emission.value.iter().zip(&wanted) {
        let answer = foreign::evaluate(&table.numbers, table.used, trits, net.code());
        asked.hold(MODEL, answer == Answered { no: 0, value: trit(wanted).into() })?;
        given.push([Trit::Zero, Trit::One, Trit::Undef][answer.value]);
    }
    Ok(given)
}

/// An output is 1 where the first row that matches names it; a constant X matches a don't-care only.
pub fn by_first_row(enabled: &Matrix, outputs: &[Net], trits: &[u8]) -> Vec<Trit> {
    let value: Vec<Trit> = enabled.value.iter().map(|&net| at(net, trits)).collect();
    let matches = |row: &&Row| row.pattern.iter().zip(&value).all(|(mask, trit)| *mask == Trit::Undef || mask == trit);
    let row = enabled.rows.iter().find(matches);
    outputs.iter().map(|output| Trit::from(row.is_some_and(|row| row.rules.contains(output)))).collect()
}

fn at(net: Net, trits: &[u8]) -> Trit {
    net.as_const().unwrap_or_else(|| handed::known(trits, net.code() - u32::from(handed::FIRST_CELL)))
}

/// Muxes of any operands, which no emission gives: the last one's net.
fn of_any(asked: &mut Asked, trits: &[u8]) -> Held {
    let count = asked.random.between(1, 12);
    let numbers = tables::numbers(&tables::well_formed(asked.random, count));
    let last = Net::cell(FIRST_MUX + count as u32 - 1);
    let wanted = handed::evaluate(&numbers, count, trits, last).ok_or(ANY)?;
    let answer = foreign::evaluate(&numbers, count, trits, last.code());
    asked.hold(ANY, answer == Answered { no: 0, value: trit(wanted).into() })
}

/// Any net asked, and now and then a trit that is none or a table that is malformed.
fn of_others(asked: &mut Asked, table: &Table, mut trits: Vec<u8>) -> Held {
    let random = &mut *asked.random;
    let (mut numbers, mut used) = (table.numbers.clone(), table.used);
    let last = FIRST_MUX + used as u32;
    let net = random.pick(&[Net::ZERO, Net::ONE, Net::UNDEF, Net::cell(0), Net::cell(GIVEN as u32 - 1)]);
    let mut asked_net = random.pick(&[net, Net::cell(last - 1), Net::cell(last), Net::cell(last + 1)]);
    match random.below(8) {
        0 => tables::spoil(random, &mut numbers, &mut used),
        1 => trits.iter_mut().filter(|_| random.chance(20)).for_each(|trit| *trit = UNDEF + 1),
        2 => asked_net = handed::high(random),
        3 => used = random.below(used + 1),
        _ => (),
    }
    let answer = foreign::evaluate(&numbers, used, &trits, asked_net.code());
    match handed::evaluate(&numbers, used, &trits, asked_net) {
        Some(wanted) => asked.hold(MODEL, answer == Answered { no: 0, value: trit(wanted).into() }),
        None => asked.hold(REFUSED, answer == Answered { no: FORM, value: 0 }),
    }
}
