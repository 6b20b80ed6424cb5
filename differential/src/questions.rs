//! What is asked of a case besides its tree.

use crate::case::{Case, Tree, Update};
use crate::generate::cell;
use crate::random::Random;
use crate::{Net, Trit};

/// A disjoint emission to ask for.
#[derive(Debug, Clone, PartialEq, Eq)]
pub struct Disjoint {
    pub updates: Vec<Update>,
    pub default: Vec<Net>,
}

/// A net to assume, mostly of the value, and the trit put there.
pub fn assumption(random: &mut Random, case: &Case) -> (Net, Trit) {
    let value = &case.matrix.value;
    let target = if value.is_empty() || random.chance(10) { cell(random) } else { random.pick(value) };
    (target, random.pick(&[Trit::Zero, Trit::One, Trit::Undef]))
}

/// Updates for some outputs, now and then for one twice, for a net that is none, or for all rules of a leaf.
pub fn disjoint(random: &mut Random, outputs: &[Net], tree: &Tree) -> Disjoint {
    let leaf = random.pick(&tree.leaves()).to_vec();
    let together = leaf.len() > 1 && random.chance(80);
    let outputs = if together { &leaf } else { outputs };
    let width = random.pick(&[0, 1, 1, 2, 2, 3]);
    let count = if together { random.between(2, 4) } else { random.below(5) };
    let updates = (0..count).map(|_| (update_net(random, outputs), bits(random, width))).collect();
    Disjoint { updates, default: bits(random, width) }
}

fn update_net(random: &mut Random, outputs: &[Net]) -> Net {
    if outputs.is_empty() || random.chance(10) { cell(random) } else { random.pick(outputs) }
}

pub fn bits(random: &mut Random, width: usize) -> Vec<Net> {
    (0..width).map(|_| bit(random)).collect()
}

/// A constant or a cell.
pub fn bit(random: &mut Random) -> Net {
    match random.below(5) {
        0 => Net::ZERO,
        1 => Net::ONE,
        2 => Net::UNDEF,
        _ => cell(random),
    }
}

/// A list of enables, every one an output, some named twice; empty where there are no outputs.
pub fn enables(random: &mut Random, outputs: &[Net], tree: &Tree) -> Vec<Net> {
    if outputs.is_empty() {
        return Vec::new();
    }
    let leaves = tree.leaves();
    let absent: Vec<Net> =
        outputs.iter().copied().filter(|net| !leaves.iter().any(|leaf| leaf.contains(net))).collect();
    let length = random.between(1, 6);
    let next = |random: &mut Random| match absent.is_empty() {
        false if random.chance(25) => random.pick(&absent),
        _ => random.pick(outputs),
    };
    (0..length).map(|_| next(random)).collect()
}
