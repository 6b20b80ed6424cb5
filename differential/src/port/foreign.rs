//! The port's functions over slices. Nothing checks their declarations but the comparison itself.

#[path = "../../../include/doorpigeon.rs"]
mod declared;

pub use declared::{Answered, Dispatched, Emitted, Made, Matrix, OUTPUTS_MAX, Outputs, ReadMade, Row, Rules};
use declared::{
    doorpigeon_add, doorpigeon_add_enable, doorpigeon_assume, doorpigeon_check, doorpigeon_disjoint,
    doorpigeon_dispatch, doorpigeon_evaluate, doorpigeon_merge, doorpigeon_new, doorpigeon_normalize,
    doorpigeon_one_hot, doorpigeon_outputs, doorpigeon_prefix, doorpigeon_print, doorpigeon_print_tree,
    doorpigeon_read,
};

/// The updates of a disjoint emission as they are lent: nets, widths, bits end to end; and the default.
#[derive(Debug, Clone, Default)]
pub struct Lent {
    pub nets: Vec<u16>,
    pub widths: Vec<usize>,
    pub bits: Vec<u16>,
    pub default: Vec<u16>,
}

// SAFETY of every call below: each pointer and length are those of one slice, lent for the call.

/// Nets by their codes, as everywhere here.
pub fn new(nets: &[u16]) -> Made {
    unsafe { doorpigeon_new(nets.as_ptr(), nets.len()) }
}

pub fn add(matrix: Matrix, pattern: &[u8], rules: &[u16]) -> Made {
    unsafe { doorpigeon_add(matrix, pattern.as_ptr(), pattern.len(), rules.as_ptr(), rules.len()) }
}

pub fn assume(matrix: Matrix, target: u32, value: u8) -> Made {
    doorpigeon_assume(matrix, target, value)
}

pub fn outputs(matrix: Matrix) -> Outputs {
    doorpigeon_outputs(matrix)
}

pub fn normalize(matrix: Matrix) -> Made {
    doorpigeon_normalize(matrix)
}

pub fn add_enable(matrix: Matrix, enable: u32) -> Made {
    doorpigeon_add_enable(matrix, enable)
}

pub fn merge(matrix: Matrix, at: u32, child: Matrix) -> Made {
    doorpigeon_merge(matrix, at, child)
}

pub fn dispatch(matrix: Matrix, enable: u32, store: &mut [u16]) -> Dispatched {
    unsafe { doorpigeon_dispatch(matrix, enable, store.as_mut_ptr(), store.len()) }
}

pub fn check(store: &[u16], root: usize) -> Answered {
    unsafe { doorpigeon_check(store.as_ptr(), store.len(), root) }
}

pub fn one_hot(store: &[u16], root: usize, outputs: &[u16], used: usize, table: &mut [u16]) -> Emitted {
    unsafe {
        doorpigeon_one_hot(
            store.as_ptr(),
            store.len(),
            root,
            outputs.as_ptr(),
            outputs.len(),
            used,
            table.as_mut_ptr(),
            table.len(),
        )
    }
}

pub fn disjoint(store: &[u16], root: usize, lent: &Lent, used: usize, table: &mut [u16]) -> Emitted {
    let Lent { nets, widths, bits, default } = lent;
    unsafe {
        doorpigeon_disjoint(
            store.as_ptr(),
            store.len(),
            root,
            nets.as_ptr(),
            nets.len(),
            widths.as_ptr(),
            widths.len(),
            bits.as_ptr(),
            bits.len(),
            default.as_ptr(),
            default.len(),
            used,
            table.as_mut_ptr(),
            table.len(),
        )
    }
}

pub fn prefix(store: &[u16], root: usize, outputs: &[u16], enables: &[u16]) -> Answered {
    unsafe {
        doorpigeon_prefix(
            store.as_ptr(),
            store.len(),
            root,
            outputs.as_ptr(),
            outputs.len(),
            enables.as_ptr(),
            enables.len(),
        )
    }
}

pub fn evaluate(table: &[u16], used: usize, trits: &[u8], asked: u32) -> Answered {
    unsafe { doorpigeon_evaluate(table.as_ptr(), table.len(), used, trits.as_ptr(), trits.len(), asked) }
}

pub fn print(matrix: Matrix, out: &mut [u8]) -> Answered {
    unsafe { doorpigeon_print(matrix, out.as_mut_ptr(), out.len()) }
}

pub fn print_tree(store: &[u16], root: usize, out: &mut [u8]) -> Answered {
    unsafe { doorpigeon_print_tree(store.as_ptr(), store.len(), root, out.as_mut_ptr(), out.len()) }
}

pub fn read(text: &[u8]) -> ReadMade {
    unsafe { doorpigeon_read(text.as_ptr(), text.len()) }
}
