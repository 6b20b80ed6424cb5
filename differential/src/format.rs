//! One case and the original's answers, as lines that begin with a letter.

use std::fmt::{Display, Write};

use crate::case::{Case, Emission};
use crate::kinds::Told;
use crate::questions::Disjoint;
use crate::{Mux, Net, Trit, model, original, reader, refuse};

/// Longer trees and tables stand as a length and a check number.
const TEXT_MOST: usize = 500;
const MUXES_MOST: usize = 20;
const NETS_A_LINE: usize = 16;

/// What is asked besides the tree; each may be left out.
#[derive(Default)]
pub struct Asked {
    pub assume: Option<(Net, Trit)>,
    pub disjoint: Option<Disjoint>,
    pub enables: Option<Vec<Net>>,
    pub damaged: Option<Vec<u8>>,
}

/// Whether the texts of the case have a print within 01's bounds.
pub fn can_write(told: &Told) -> bool {
    let Case { matrix, enable, merge, .. } = &told.case;
    let prints = |matrix| refuse::of_matrix(matrix).is_none();
    let matrices = match merge {
        Some(merge) => prints(&merge.parent) && prints(&merge.child),
        None => prints(matrix),
    };
    matrices && reader::net(&enable.to_string()).is_some()
}

pub fn write(number: usize, told: &Told, asked: &Asked) -> String {
    let mut out = format!("C {number} {}\n", told.case.family);
    if write_merge(&mut out, &told.case) {
        write_matrix(&mut out, told);
        write_asked(&mut out, told, asked);
    }
    out
}

/// The merge that made the matrix; false where 01 refuses it.
fn write_merge(out: &mut String, case: &Case) -> bool {
    let Some(merge) = &case.merge else { return true };
    line(out, 'J', [merge.at]);
    text(out, 'Q', &original::print_matrix(&merge.parent));
    text(out, 'K', &original::print_matrix(&merge.child));
    let refused = refuse::of_merge(merge, &case.matrix);
    refused.iter().for_each(|number| line(out, 'Z', [number]));
    refused.is_none()
}

fn write_matrix(out: &mut String, told: &Told) {
    let case = &told.case;
    let matrix = original::print_matrix(&case.matrix);
    text(out, 'M', &matrix);
    line(out, 'E', [case.enable]);
    let outputs = original::outputs(&case.matrix);
    nets(out, &format!("O {}", outputs.len()), &outputs);
    if refuse::of_enable(case).is_none() {
        let normalized = original::print_matrix(&original::normalized(case));
        if normalized == matrix { out.push_str("n\n") } else { text(out, 'N', &normalized) }
    }
    match &told.answer {
        Err(number) => line(out, 'R', [number]),
        Ok(grown) => write_tree(out, case, grown, &outputs),
    }
}

fn write_tree(out: &mut String, case: &Case, grown: &model::Grown, outputs: &[Net]) {
    line(out, 'P', [grown.size, grown.peak]);
    let tree = original::tree(case);
    long_text(out, &original::print_tree(&tree));
    match refuse::of_emission(&tree, outputs.len()) {
        Some(number) => line(out, 'W', [number]),
        None => emission(out, &original::one_hot(&tree, outputs)),
    }
}

fn write_asked(out: &mut String, told: &Told, asked: &Asked) {
    if let Some((target, trit)) = asked.assume {
        line(out, 'A', [target, Net::from(trit)]);
        text(out, 'B', &original::print_matrix(&original::assume(&told.case.matrix, target, trit)));
    }
    if let (Some(disjoint), Ok(_)) = (&asked.disjoint, &told.answer) {
        write_disjoint(out, &told.case, disjoint);
    }
    if let (Some(enables), Ok(_)) = (&asked.enables, &told.answer) {
        let tree = original::tree(&told.case);
        let length = original::prefix(&tree, &original::outputs(&told.case.matrix), enables);
        nets(out, &format!("L {length} {}", enables.len()), enables);
    }
    if let Some(damaged) = &asked.damaged {
        let line = reader::read(damaged).err().unwrap_or(0);
        let damaged = std::str::from_utf8(damaged).expect("damage that prints");
        writeln!(out, "D {} {line}\n{damaged}", damaged.len()).expect("a string takes all");
    }
}

fn write_disjoint(out: &mut String, case: &Case, disjoint: &Disjoint) {
    let Disjoint { updates, default } = disjoint;
    line(out, 'I', [updates.len(), default.len()]);
    updates.iter().for_each(|(net, bits)| nets(out, &format!("Y {net}"), bits));
    nets(out, "F", default);
    match original::disjoint(&original::tree(case), updates, default) {
        Some(disjoint) => emission(out, &disjoint),
        None => line(out, 'X', [refuse::OVERLAP]),
    }
}

/// The letter, then a space and each part.
fn line<T: Display>(out: &mut String, letter: char, parts: impl IntoIterator<Item = T>) {
    out.push(letter);
    parts.into_iter().for_each(|part| write!(out, " {part}").expect("a string takes all"));
    out.push('\n');
}

/// The letter and the count of bytes, then the bytes and an LF that is no part of them.
fn text(out: &mut String, letter: char, text: &str) {
    line(out, letter, [text.len()]);
    out.push_str(text);
    out.push('\n');
}

fn long_text(out: &mut String, tree: &str) {
    match tree.len() <= TEXT_MOST {
        true => text(out, 'T', tree),
        false => line(out, 't', [tree.len(), check(tree.bytes().map(usize::from))]),
    }
}

/// A list that is too long for a line goes on in lines that begin with `+`.
fn nets(out: &mut String, head: &str, nets: &[Net]) {
    out.push_str(head);
    for (place, net) in nets.iter().enumerate() {
        let goes_on = place > 0 && place % NETS_A_LINE == 0;
        write!(out, "{} {net}", if goes_on { "\n+" } else { "" }).expect("a string takes all");
    }
    out.push('\n');
}

/// A long table's check number goes over its muxes, then over the value.
fn emission(out: &mut String, emission: &Emission) {
    let Emission { muxes, value } = emission;
    let parts = |mux: &Mux| [mux.select, mux.one, mux.zero];
    if muxes.len() <= MUXES_MOST {
        line(out, 'H', [muxes.len(), value.len()]);
        muxes.iter().for_each(|mux| line(out, 'U', parts(mux)));
        nets(out, "V", value);
    } else {
        let codes = muxes.iter().flat_map(parts).chain(value.iter().copied()).map(|net| net.code() as usize);
        line(out, 'h', [muxes.len(), value.len(), check(codes)]);
    }
}

/// From 0, each number in turn: times 31, plus the number, modulo 65,521.
fn check(numbers: impl Iterator<Item = usize>) -> usize {
    numbers.fold(0, |sum, number| (sum * 31 + number) % 65_521)
}
