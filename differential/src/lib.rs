//! The original's decision pass, unchanged, over a stand-in for the types it lacks.
//! Here too: cases to ask it, and what document 01 says where the original has no answer.

// The original takes its types from a crate of this name; here they are ours.
extern crate self as prjunnamed_netlist;

pub mod answers;
pub mod case;
pub mod cells;
pub mod check;
pub mod damage;
pub mod edges;
pub mod format;
pub mod generate;
pub mod kinds;
pub mod meaning;
pub mod merges;
pub mod model;
pub mod original;
#[cfg(feature = "port")]
pub mod port;
pub mod questions;
pub mod random;
pub mod reader;
pub mod refuse;
pub mod settings;
pub mod small;
pub mod standin;
pub mod stats;
pub mod words;

/// The original's trits and constants.
#[allow(clippy::all)]
pub mod logic {
    include!(concat!(env!("OUT_DIR"), "/logic.rs"));
}

/// The original's match and assign cells.
#[allow(clippy::all)]
pub mod cell {
    include!(concat!(env!("OUT_DIR"), "/cell.rs"));
}

pub use cell::{AssignCell, MatchCell};
pub use logic::{Const, Trit};
pub use standin::{Cell, CellRef, Design, Mux, Net, Value};
