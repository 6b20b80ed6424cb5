//! Seeded lists of match and assign cells, and what the original's whole pass makes of them.

use crate::random::Random;
use crate::{AssignCell, Cell, Const, Design, MatchCell, Net, Trit, Value, original};

/// Inputs are cells from 0, outputs of the list from this number up.
const FIRST_OUTPUT: u32 = 100;
const INPUTS: usize = 6;

/// The cells of a list with the nets they drive, in list order.
pub type List = Vec<(Value, Cell)>;

/// Outputs are given out before the cells are drawn, so that now and then an enable names a later cell or its own.
pub fn list(random: &mut Random) -> List {
    let matches = random.between(1, 6);
    let mut next = FIRST_OUTPUT;
    let outputs: Vec<Value> = (0..matches).map(|_| drive(&mut next, random.between(1, 3))).collect();
    let driven: Vec<Net> = outputs.iter().flatten().collect();
    let mut list: List = Vec::new();
    for output in outputs {
        let earlier = driven.iter().position(|net| *net == output[0]).expect("driven by this cell");
        let reach = if random.chance(8) { driven.len() } else { earlier };
        let cell = match_cell(random, output.len(), &driven[..reach]);
        list.push((output, cell));
    }
    assigns(random, &mut list, &driven, &mut next);
    list
}

pub fn design(list: &List) -> Design {
    let mut design = Design::new();
    list.iter().for_each(|(output, cell)| design.add_cell(output, cell.clone()));
    design
}

fn drive(next: &mut u32, width: usize) -> Value {
    (0..width).map(|_| std::mem::replace(next, *next + 1)).map(Net::cell).collect()
}

fn input(random: &mut Random) -> Net {
    match random.below(12) {
        0 => random.pick(&[Net::ZERO, Net::ONE, Net::UNDEF]),
        _ => Net::cell(random.below(INPUTS) as u32),
    }
}

fn inputs(random: &mut Random, width: usize) -> Value {
    (0..width).map(|_| input(random)).collect()
}

fn enable(random: &mut Random, driven: &[Net], driven_percent: usize) -> Net {
    match random.chance(driven_percent) {
        true if !driven.is_empty() => random.pick(driven),
        _ if random.chance(50) => Net::ONE,
        _ => input(random),
    }
}

fn match_cell(random: &mut Random, outputs: usize, driven: &[Net]) -> Cell {
    let width = random.below(4);
    let pattern = |random: &mut Random| -> Const {
        (0..width).map(|_| random.pick(&[Trit::Zero, Trit::One, Trit::Undef])).collect()
    };
    let alternatives =
        |random: &mut Random| (0..random.pick(&[0, 1, 1, 1, 1, 1, 2, 2])).map(|_| pattern(random)).collect();
    let patterns = (0..outputs).map(|_| alternatives(random)).collect();
    Cell::Match(MatchCell { value: inputs(random, width), enable: enable(random, driven, 60), patterns })
}

/// Mostly one chain of whole-width assigns; some take a slice, some begin anew.
fn assigns(random: &mut Random, list: &mut List, driven: &[Net], next: &mut u32) {
    let width = random.between(1, 3);
    let mut value = inputs(random, width);
    for _ in 0..random.below(6) {
        let offset = if random.chance(20) { random.below(width) } else { 0 };
        let update = inputs(random, width - offset);
        let cell = AssignCell { value: value.clone(), enable: enable(random, driven, 80), update, offset };
        let output = drive(next, width);
        list.push((output.clone(), Cell::Assign(cell)));
        value = if random.chance(85) { output } else { inputs(random, width) };
    }
}

/// Prints each list and the original's answers: gathered matrices, chains, the muxes and what they drive.
pub fn print(seed: u64, lists: usize) {
    let mut random = Random::new(seed);
    for number in 1..=lists {
        println!("list {number}");
        print_list(&list(&mut random));
    }
}

fn print_list(list: &List) {
    let mut design = design(list);
    design.iter_cells().for_each(|cell_ref| println!("cell {}", design.display_cell(cell_ref)));
    for gathered in original::gathered(&design) {
        print!("gathered {:?}\n{}", gathered.cells, original::print_matrix(&gathered.matrix));
    }
    original::chains(&design).iter().for_each(|chain| println!("chain {chain:?}"));
    original::decision(&mut design);
    design.muxes().iter().for_each(|mux| println!("mux {} {} {}", mux.select, mux.one, mux.zero));
    design.replaced().iter().for_each(|(net, driver)| println!("{net} is {driver}"));
}
