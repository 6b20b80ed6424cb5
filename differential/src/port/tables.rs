//! Mux tables as they are lent to an emission, and what must stand in them after it.

use super::compare::{Asked, Held};
use super::flat::{code, codes, slots};
use super::foreign::Emitted;
use super::handed::{self, MUX_RUN};
use crate::case::{Emission, FIRST_MUX, MUXES_MAX};
use crate::questions::bit;
use crate::random::Random;
use crate::{Mux, Net, refuse};

/// Stands in every entry that is not in use: it codes no net, so what is left of it shows.
const OLD: u16 = 0xfedc;

/// An emission to ask both sides for.
pub struct Question<'a> {
    /// The subjects that count an emission and a refusal.
    pub subjects: (&'static str, &'static str),
    /// The muxes needed.
    pub need: usize,
    /// 01's number, where one applies whatever the table.
    pub refused: Option<u8>,
    /// The original's emission has the muxes in use first; none is its panic, which is 9.
    pub original: &'a dyn Fn(&[Mux]) -> Option<Emission>,
    pub port: &'a dyn Fn(usize, &mut [u16]) -> Emitted,
}

/// Lends tables that are just long enough, one entry short, longer, and malformed.
pub fn hold(asked: &mut Asked, question: &Question) -> Held {
    let used = in_use(asked.random, question.need);
    let wanted = match question.refused {
        Some(no) => Err(no),
        None => (question.original)(&used).ok_or(refuse::OVERLAP),
    };
    let full = (used.len() + question.need).min(MUXES_MAX + 1);
    let longer = full + asked.random.between(1, 3);
    for entries in [Some(full), full.checked_sub(1), Some(longer)].into_iter().flatten() {
        let table = lent(asked.random, &used, entries);
        of_table(asked, question, &wanted, &table, used.len())?;
    }
    let table = lent(asked.random, &used, full);
    of_malformed(asked, question, table, used.len())
}

/// Well-formed muxes; few mostly, now and then so many that what is needed just fits 8,192, or doesn't by one.
fn in_use(random: &mut Random, need: usize) -> Vec<Mux> {
    let few = random.pick(&[0, 1, 2, 5]);
    let room = MUXES_MAX.saturating_sub(need);
    let count = if random.below(1_000) == 0 { room + random.below(2) } else { few.min(room) };
    well_formed(random, count.min(MUXES_MAX))
}

pub fn well_formed(random: &mut Random, count: usize) -> Vec<Mux> {
    (0..count).map(|place| mux(random, place)).collect()
}

/// Its operands are constants, cells up to 9,999 and the nets of muxes before it.
fn mux(random: &mut Random, place: usize) -> Mux {
    let operand = |random: &mut Random| match place {
        0 => bit(random),
        _ if random.chance(50) => bit(random),
        _ => Net::cell(FIRST_MUX + random.below(place) as u32),
    };
    Mux { select: operand(random), one: operand(random), zero: operand(random) }
}

pub fn numbers(muxes: &[Mux]) -> Vec<u16> {
    muxes.iter().flat_map(|mux| [mux.select, mux.one, mux.zero].map(code)).collect()
}

/// So many entries, the first of them in use, and some numbers after the last whole one.
fn lent(random: &mut Random, used: &[Mux], entries: usize) -> Vec<u16> {
    let mut table = numbers(used);
    table.resize(MUX_RUN * entries + random.below(MUX_RUN), OLD);
    table
}

fn of_table(asked: &mut Asked, question: &Question, wanted: &Result<Emission, u8>, table: &[u16], used: usize) -> Held {
    let room = handed::entries(table);
    let wanted = match wanted {
        _ if used > room => Err(refuse::FORM),
        Ok(_) if used + question.need > room => Err(refuse::ROOM),
        Ok(emission) => Ok(emission),
        Err(no) => Err(*no),
    };
    let mut after = table.to_vec();
    let answer = (question.port)(used, &mut after);
    let (emitted_to, refused) = question.subjects;
    match wanted {
        Ok(emission) => asked.hold(emitted_to, answer == emitted(emission) && after == put(emission, table)),
        Err(no) => asked.hold(refused, answer == refusal(no) && after == table),
    }
}

/// The muxes stand from the first entry on, those in use before among them; no other number changes.
fn put(emission: &Emission, table: &[u16]) -> Vec<u16> {
    let mut after = table.to_vec();
    let muxes = numbers(&emission.muxes);
    after[..muxes.len()].copy_from_slice(&muxes);
    after
}

fn emitted(emission: &Emission) -> Emitted {
    let nets = codes(&emission.value);
    Emitted { no: 0, nets: slots(nets.iter().copied(), 0), width: nets.len(), used: emission.muxes.len() }
}

pub fn refusal(no: u8) -> Emitted {
    Emitted { no, nets: slots([].into_iter(), 0), width: 0, used: 0 }
}

/// One operand changed, or a count that the table does not have: 12 where 01 says so, whatever else is wrong.
fn of_malformed(asked: &mut Asked, question: &Question, mut table: Vec<u16>, mut used: usize) -> Held {
    spoil(asked.random, &mut table, &mut used);
    if handed::muxes(&table, used).is_some() {
        return Ok(());
    }
    let mut after = table.clone();
    let answer = (question.port)(used, &mut after);
    asked.hold(question.subjects.1, answer == refusal(refuse::FORM) && after == table)
}

/// An operand that this mux drives, or a later one, or none; or too large a count.
pub fn spoil(random: &mut Random, table: &mut [u16], used: &mut usize) {
    if *used == 0 || table.len() < MUX_RUN * *used || random.chance(30) {
        *used = random.pick(&[table.len() / MUX_RUN + 1, MUXES_MAX + 1, usize::MAX]);
        return;
    }
    let place = random.below(MUX_RUN * *used);
    let own = handed::LAST_CELL + 1 + (place / MUX_RUN) as u16;
    table[place] = random.pick(&[own, own + 1, handed::LAST_NET, handed::LAST_NET + 1, OLD]);
}
