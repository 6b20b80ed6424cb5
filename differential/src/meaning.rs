//! What a list of cells means, cell by cell, held against the muxes that the original's pass leaves.

use std::collections::BTreeMap;

use crate::case::FIRST_MUX;
use crate::cells::{self, List};
use crate::random::Random;
use crate::{AssignCell, Cell, Const, Design, MatchCell, Mux, Net, Trit, original};

const SETTINGS: usize = 8;

/// Lists through the whole pass, each at some settings of its inputs by 0 and 1; true if nothing disagrees.
pub fn run(seed: u64, lists: usize) -> bool {
    let mut random = Random::new(seed);
    let (mut passed, mut failed) = (0usize, 0usize);
    for number in 1..=lists {
        let list = cells::list(&mut random);
        match agrees(&mut random, &list) {
            Some(true) => passed += 1,
            Some(false) => {
                failed += 1;
                println!("list {number} disagrees: {list:?}");
            }
            None => (),
        }
    }
    println!("{lists} lists, {} with a cycle or with outputs that nothing drives", lists - passed - failed);
    println!("{passed} passed, {failed} failed");
    failed == 0
}

/// None where some cell hangs on itself, or where the original leaves an output undriven.
fn agrees(random: &mut Random, list: &List) -> Option<bool> {
    let mut design = cells::design(list);
    original::decision(&mut design);
    let outputs: Vec<Net> = list.iter().flat_map(|(output, _)| output.iter()).collect();
    if !outputs.iter().all(|net| design.replaced().contains_key(net)) {
        return None;
    }
    for _ in 0..SETTINGS {
        let bits = random.draw();
        let input = |number: u32| Trit::from(bits >> number & 1 == 1);
        let lowered = Lowered::new(&design);
        for &net in &outputs {
            let meant = Meant { list, input: &input }.trit(net, list.len())?;
            if lowered.trit(net, &input, lowered.depth())? != meant {
                return Some(false);
            }
        }
    }
    Some(true)
}

/// The text of the cells; `steps` bounds the way through other cells, and a cycle outlasts it.
struct Meant<'a> {
    list: &'a List,
    input: &'a dyn Fn(u32) -> Trit,
}

impl Meant<'_> {
    fn trit(&self, net: Net, steps: usize) -> Option<Trit> {
        let Some(number) = net.number() else { return net.as_const() };
        let driver = self.list.iter().find_map(|(output, cell)| Some((cell, output.iter().position(|o| o == net)?)));
        match driver {
            None => Some((self.input)(number)),
            Some((Cell::Match(cell), bit)) => self.matched(cell, bit, steps.checked_sub(1)?),
            Some((Cell::Assign(cell), bit)) => self.assigned(cell, bit, steps.checked_sub(1)?),
        }
    }

    /// 1 for the first output with an alternative that matches, if the enable is 1.
    fn matched(&self, cell: &MatchCell, bit: usize, steps: usize) -> Option<Trit> {
        let enabled = self.trit(cell.enable, steps)? == Trit::One;
        let value: Vec<Trit> = cell.value.iter().map(|net| self.trit(net, steps)).collect::<Option<_>>()?;
        let matches =
            |pattern: &Const| pattern.iter().zip(&value).all(|(mask, &trit)| mask == Trit::Undef || mask == trit);
        let first = cell.patterns.iter().position(|alternatives| alternatives.iter().any(matches));
        Some(Trit::from(enabled && first == Some(bit)))
    }

    fn assigned(&self, cell: &AssignCell, bit: usize, steps: usize) -> Option<Trit> {
        let old = self.trit(cell.value[bit], steps)?;
        let Some(update) = bit.checked_sub(cell.offset).and_then(|place| cell.update.get(place)) else {
            return Some(old);
        };
        let (enable, update) = (self.trit(cell.enable, steps)?, self.trit(*update, steps)?);
        Some(enable.mux(Const::from(update), Const::from(old)).lsb())
    }
}

/// The muxes after the pass; they refer to each other in any order.
struct Lowered {
    muxes: Vec<Mux>,
    replaced: BTreeMap<Net, Net>,
}

impl Lowered {
    fn new(design: &Design) -> Lowered {
        Lowered { muxes: design.muxes(), replaced: design.replaced() }
    }

    /// No way through the muxes is longer, unless it is a cycle.
    fn depth(&self) -> usize {
        self.muxes.len() + 1
    }

    fn trit(&self, net: Net, input: &dyn Fn(u32) -> Trit, steps: usize) -> Option<Trit> {
        let net = *self.replaced.get(&net).unwrap_or(&net);
        let Some(number) = net.number() else { return net.as_const() };
        let Some(mux) = number.checked_sub(FIRST_MUX).map(|place| self.muxes[place as usize]) else {
            return Some(input(number));
        };
        let arm = |net: Net| self.trit(net, input, steps.checked_sub(1)?).map(Const::from);
        Some(arm(mux.select)?.lsb().mux(arm(mux.one)?, arm(mux.zero)?).lsb())
    }
}
