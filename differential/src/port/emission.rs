//! One-hot and disjoint emission, against the original's muxes in their order.

use super::compare::{Asked, Held};
use super::flat::codes;
use super::foreign::{self, Lent};
use super::handed::{self, is_low, is_name, is_net};
use super::store::{self, RUN};
use super::tables::{self, Question};
use crate::case::{CELL_MAX, Tree, Update, WIDTH_MAX};
use crate::generate::cell;
use crate::questions::{self, bits};
use crate::random::Random;
use crate::refuse::{FORM, NET, WIDTH, lowest};
use crate::{Net, original};

pub const ONE_HOT: &str = "one-hot";
pub const ONE_HOT_REFUSED: &str = "one-hot, refused";
pub const DISJOINT: &str = "disjoint";
pub const DISJOINT_REFUSED: &str = "disjoint, refused";

/// A number that codes no net.
const NO_NET: u16 = handed::LAST_NET + 1;

/// All outputs, a list drawn from them, and updates for some.
pub fn hold(asked: &mut Asked, tree: &Tree, outputs: &[Net]) -> Held {
    of_one_hot(asked, tree, &codes(outputs))?;
    let list = list(asked.random, outputs);
    of_one_hot(asked, tree, &list)?;
    of_disjoint(asked, tree, outputs)
}

/// Any outputs in any order, some twice; now and then none, 64 or 65, a net that is no rule, or no net.
fn list(random: &mut Random, outputs: &[Net]) -> Vec<u16> {
    let few = random.below(6);
    let count = if random.chance(3) { WIDTH_MAX + random.below(2) } else { few };
    let mut list: Vec<Net> = (0..count).map(|_| output(random, outputs)).collect();
    if random.chance(3) {
        list.push(random.pick(&[Net::ZERO, Net::ONE, Net::UNDEF, Net::cell(CELL_MAX + 1)]));
        random.shuffle(&mut list);
    }
    let mut list = codes(&list);
    if random.chance(2) {
        list.insert(random.below(list.len() + 1), NO_NET);
    }
    list
}

fn output(random: &mut Random, outputs: &[Net]) -> Net {
    if outputs.is_empty() || random.chance(10) { cell(random) } else { random.pick(outputs) }
}

fn of_one_hot(asked: &mut Asked, tree: &Tree, outputs: &[u16]) -> Held {
    let store = store::numbers(tree);
    let root = store.len() / RUN - 1;
    let form = handed::tree(&store, root).is_none() || !outputs.iter().copied().all(is_net);
    let low = lowest([(NET, !outputs.iter().copied().all(is_name)), (WIDTH, outputs.len() > WIDTH_MAX)]);
    let nets = nets(outputs);
    let question = Question {
        subjects: (ONE_HOT, ONE_HOT_REFUSED),
        need: root / 2 * outputs.len(),
        refused: form.then_some(FORM).or(low),
        original: &|used| Some(original::one_hot_after(used, tree, &nets)),
        port: &|used, table| foreign::one_hot(&store, root, outputs, used, table),
    };
    tables::hold(asked, &question)
}

fn nets(codes: &[u16]) -> Vec<Net> {
    codes.iter().copied().map(handed::net).collect()
}

fn of_disjoint(asked: &mut Asked, tree: &Tree, outputs: &[Net]) -> Held {
    let lent = lent(asked.random, tree, outputs);
    let updates = handed::updates(&lent);
    let default = &lent.default[..];
    let store = store::numbers(tree);
    let root = store.len() / RUN - 1;
    let every = |bit: fn(u16) -> bool| updates.iter().flat_map(|(_, bits)| bits).chain(default).copied().all(bit);
    let targets = |net: fn(u16) -> bool| updates.iter().all(|&(target, _)| net(target));
    let form = handed::tree(&store, root).is_none() || !targets(is_net) || !every(is_net);
    let other = updates.iter().any(|(_, bits)| bits.len() != default.len());
    let low = lowest([(NET, !targets(is_name) || !every(is_low)), (WIDTH, default.len() > WIDTH_MAX || other)]);
    let updates: Vec<Update> = updates.iter().map(|(net, bits)| (handed::net(*net), nets(bits))).collect();
    let default = nets(default);
    let question = Question {
        subjects: (DISJOINT, DISJOINT_REFUSED),
        need: root / 2 * default.len(),
        refused: form.then_some(FORM).or(low),
        original: &|used| original::disjoint_after(used, tree, &updates, &default),
        port: &|used, table| foreign::disjoint(&store, root, &lent, used, table),
    };
    tables::hold(asked, &question)
}

/// Updates for some outputs, at times of 64 or 65 bits; two times in five with something wrong, or over, or short.
fn lent(random: &mut Random, tree: &Tree, outputs: &[Net]) -> Lent {
    let mut asked = questions::disjoint(random, outputs, tree);
    if random.chance(2) {
        let width = WIDTH_MAX + random.below(2);
        asked.default = bits(random, width);
        asked.updates.iter_mut().for_each(|(_, update)| *update = bits(random, width));
    }
    let nets: Vec<Net> = asked.updates.iter().map(|(net, _)| *net).collect();
    let mut lent = Lent {
        nets: codes(&nets),
        widths: asked.updates.iter().map(|(_, bits)| bits.len()).collect(),
        bits: asked.updates.iter().flat_map(|(_, bits)| codes(bits)).collect(),
        default: codes(&asked.default),
    };
    if random.chance(40) {
        disturb(random, &mut lent);
    }
    lent
}

/// What is over in the widths or the bits is not in use, and may be anything.
fn disturb(random: &mut Random, lent: &mut Lent) {
    let high = CELL_MAX as u16 + 4;
    let wrong = random.pick(&[0, 1, 2, high, NO_NET]);
    match random.below(9) {
        0 => lent.bits.extend([NO_NET; 2]),
        1 => lent.widths.extend([0, usize::MAX]),
        2 => drop(lent.bits.pop()),
        3 => drop(lent.widths.pop()),
        4 => lent.widths.iter_mut().for_each(|width| *width += 1),
        5 => lent.default.push(Net::ZERO.code() as u16),
        6 => put_one(random, &mut lent.nets, wrong),
        7 => put_one(random, &mut lent.bits, wrong),
        _ => put_one(random, &mut lent.default, wrong),
    }
}

fn put_one(random: &mut Random, numbers: &mut [u16], wrong: u16) {
    if !numbers.is_empty() {
        numbers[random.below(numbers.len())] = wrong;
    }
}
