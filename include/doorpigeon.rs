//! Doorpigeon for Rust: what `doorpigeon.h` declares, which says what each function does. Needs Rust 1.82 or newer.
//! Name this file in a module's `path` attribute, and link libabi.a, which the script `staticlib` writes.

// Nobody needs all of it.
#![allow(dead_code)]

pub const COLUMNS_MAX: usize = 16;
pub const ROWS_MAX: usize = 64;
pub const RULES_MAX: usize = 8;
pub const OUTPUTS_MAX: usize = ROWS_MAX * RULES_MAX;
pub const WIDTH_MAX: usize = 64;
/// Entries of a node store, and the numbers of one.
pub const NODES_MAX: usize = 1024;
pub const NODE_RUN: usize = RULES_MAX + 1;
/// Entries of a mux table, and the numbers of one: select, one arm, zero arm.
pub const MUX_MAX: usize = 8192;
pub const MUX_RUN: usize = 3;
/// Bytes of the longest printed matrix, and of the longest printed tree.
pub const TEXT_MAX: usize = 4773;
pub const TREE_TEXT_MAX: usize = 559_082;

/// The trits; a net with one of these numbers is that constant.
pub const ZERO: u8 = 0;
pub const ONE: u8 = 1;
pub const X: u8 = 2;

/// The net that is cell k, for k up to 9,999. Those far over it give a net that every call refuses.
pub const fn cell(k: u16) -> u16 {
    k.saturating_add(3)
}

/// The numbers.
pub const ACCEPTED: u8 = 0;
pub const COLUMNS: u8 = 1;
pub const ROWS: u8 = 2;
pub const SHAPE: u8 = 3;
pub const NET: u8 = 4;
pub const RULES: u8 = 5;
pub const CATCH: u8 = 6;
pub const NODES: u8 = 7;
pub const WIDTH: u8 = 8;
pub const OVERLAP: u8 = 9;
pub const ROOM: u8 = 10;
pub const LINE: u8 = 11;
pub const FORM: u8 = 12;

#[repr(C)]
#[derive(Debug, Clone, Copy, PartialEq, Eq)]
pub struct Rules {
    pub items: [u16; RULES_MAX],
    pub count: usize,
}

#[repr(C)]
#[derive(Debug, Clone, Copy, PartialEq, Eq)]
pub struct Row {
    pub pattern: [u8; COLUMNS_MAX],
    pub len: usize,
    pub rules: Rules,
}

/// Nets of the columns, the lowest first; rows, the first that matches wins.
#[repr(C)]
#[derive(Debug, Clone, Copy, PartialEq, Eq)]
pub struct Matrix {
    pub value: [u16; COLUMNS_MAX],
    pub columns: usize,
    pub rows: [Row; ROWS_MAX],
    pub count: usize,
}

/// The number, and the matrix made or handed back.
#[repr(C)]
#[derive(Debug, Clone, Copy, PartialEq, Eq)]
pub struct Made {
    pub no: u8,
    pub matrix: Matrix,
}

/// The number and, where a text is refused, the line; then the matrix has no columns and no rows.
#[repr(C)]
#[derive(Debug, Clone, Copy, PartialEq, Eq)]
pub struct ReadMade {
    pub no: u8,
    pub line: usize,
    pub matrix: Matrix,
}

/// The number, and the nets with zeros after them.
#[repr(C)]
#[derive(Debug, Clone, Copy, PartialEq, Eq)]
pub struct Outputs {
    pub no: u8,
    pub nets: [u16; OUTPUTS_MAX],
    pub count: usize,
}

/// The number, and where there is a tree the place of its root and how many entries it has.
#[repr(C)]
#[derive(Debug, Clone, Copy, PartialEq, Eq)]
pub struct Dispatched {
    pub no: u8,
    pub root: usize,
    pub size: usize,
}

/// The number; the nets of the value with zeros after them, how many, and the table's entries then in use.
#[repr(C)]
#[derive(Debug, Clone, Copy, PartialEq, Eq)]
pub struct Emitted {
    pub no: u8,
    pub nets: [u16; WIDTH_MAX],
    pub width: usize,
    pub used: usize,
}

/// The number, and what is answered: a size, a length, a trit.
#[repr(C)]
#[derive(Debug, Clone, Copy, PartialEq, Eq)]
pub struct Answered {
    pub no: u8,
    pub value: usize,
}

// A slice goes as its pointer and its length. Where no pointer goes in, nothing is asked of the caller.
unsafe extern "C" {
    pub fn doorpigeon_new(nets: *const u16, nets_len: usize) -> Made;
    pub fn doorpigeon_add(
        matrix: Matrix,
        pattern: *const u8,
        pattern_len: usize,
        rules: *const u16,
        rules_len: usize,
    ) -> Made;
    pub safe fn doorpigeon_merge(matrix: Matrix, at: u32, child: Matrix) -> Made;
    pub safe fn doorpigeon_add_enable(matrix: Matrix, enable: u32) -> Made;
    pub safe fn doorpigeon_assume(matrix: Matrix, target: u32, value: u8) -> Made;
    pub safe fn doorpigeon_normalize(matrix: Matrix) -> Made;
    pub safe fn doorpigeon_outputs(matrix: Matrix) -> Outputs;
    pub fn doorpigeon_dispatch(matrix: Matrix, enable: u32, store: *mut u16, store_len: usize) -> Dispatched;
    pub fn doorpigeon_check(store: *const u16, store_len: usize, root: usize) -> Answered;
    pub fn doorpigeon_one_hot(
        store: *const u16,
        store_len: usize,
        root: usize,
        outputs: *const u16,
        outputs_len: usize,
        count: usize,
        table: *mut u16,
        table_len: usize,
    ) -> Emitted;
    pub fn doorpigeon_disjoint(
        store: *const u16,
        store_len: usize,
        root: usize,
        nets: *const u16,
        nets_len: usize,
        widths: *const usize,
        widths_len: usize,
        bits: *const u16,
        bits_len: usize,
        fallback: *const u16,
        fallback_len: usize,
        count: usize,
        table: *mut u16,
        table_len: usize,
    ) -> Emitted;
    pub fn doorpigeon_prefix(
        store: *const u16,
        store_len: usize,
        root: usize,
        outputs: *const u16,
        outputs_len: usize,
        enables: *const u16,
        enables_len: usize,
    ) -> Answered;
    pub fn doorpigeon_evaluate(
        table: *const u16,
        table_len: usize,
        count: usize,
        trits: *const u8,
        trits_len: usize,
        asked: u32,
    ) -> Answered;
    pub fn doorpigeon_print(matrix: Matrix, out: *mut u8, out_len: usize) -> Answered;
    pub fn doorpigeon_print_tree(
        store: *const u16,
        store_len: usize,
        root: usize,
        out: *mut u8,
        out_len: usize,
    ) -> Answered;
    pub fn doorpigeon_read(text: *const u8, text_len: usize) -> ReadMade;
}
