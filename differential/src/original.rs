//! The original's pass as it stands, and probes among its private items.

#![allow(clippy::all)]

include!(concat!(env!("OUT_DIR"), "/decision.rs"));

#[warn(clippy::all)]
mod pass;
#[warn(clippy::all)]
mod probe;

pub use pass::{Gathered, chains, gathered, prefix};
pub use probe::{
    Opened, added, assume, built, disjoint, disjoint_after, enabled, merge, normalize, normalized, one_hot,
    one_hot_after, outputs, print_matrix, print_tree, tree,
};
