//! Holds 01's words against the original's answers on one case.

use crate::damage::{self, Bytes};
use crate::kinds::Told;
use crate::random::Random;
use crate::{model, original, questions, reader, refuse, words};

/// The first thing on which the two differ.
pub fn disagreement(random: &mut Random, told: &Told) -> Option<&'static str> {
    of_matrix(random, told).or_else(|| of_tree(random, told)).or_else(|| of_text(random, told))
}

fn first<const N: usize>(equal: [(&'static str, bool); N]) -> Option<&'static str> {
    equal.into_iter().find_map(|(what, equal)| (!equal).then_some(what))
}

fn of_matrix(random: &mut Random, told: &Told) -> Option<&'static str> {
    let case = &told.case;
    let matrix = &case.matrix;
    let (target, trit) = questions::assumption(random, case);
    let (enabled, normalized) = (original::enabled(case), original::normalized(case));
    let assumed = original::assume(&normalized, target, trit);
    first([
        ("merge", case.merge.as_ref().is_none_or(|merge| words::merge(merge) == *matrix)),
        ("add_enable", words::add_enable(case) == enabled),
        ("outputs", words::outputs(matrix) == original::outputs(matrix)),
        ("normalize", words::normalize(&enabled) == normalized),
        ("assume", words::assume(&normalized, target, trit) == assumed),
        ("normalize after assume", words::normalize(&assumed) == original::normalize(&assumed)),
        ("matrix print", words::print_matrix(matrix) == original::print_matrix(matrix)),
        ("normalized print", words::print_matrix(&normalized) == original::print_matrix(&normalized)),
    ])
}

fn of_tree(random: &mut Random, told: &Told) -> Option<&'static str> {
    let Ok(grown) = &told.answer else { return None };
    let case = &told.case;
    let (tree, outputs) = (original::tree(case), original::outputs(&case.matrix));
    let asked = questions::disjoint(random, &outputs, &tree);
    let disjoint =
        (!model::overlaps(&tree, &asked.updates)).then(|| words::disjoint(&tree, &asked.updates, &asked.default));
    let enables = questions::enables(random, &outputs, &tree);
    let fits = |store: usize| model::grow(case, store).is_some();
    first([
        ("tree", grown.tree == tree && grown.size == tree.size()),
        ("peak", fits(grown.peak) && !fits(grown.peak - 1)),
        ("tree print", words::print_tree(&tree) == original::print_tree(&tree)),
        ("one-hot", words::one_hot(&tree, &outputs) == original::one_hot(&tree, &outputs)),
        ("disjoint", disjoint == original::disjoint(&tree, &asked.updates, &asked.default)),
        ("prefix", words::prefix(&tree, &enables) == original::prefix(&tree, &outputs, &enables)),
    ])
}

/// A printed matrix reads back to itself, and a damaged text that reads is a print.
fn of_text(random: &mut Random, told: &Told) -> Option<&'static str> {
    let matrix = &told.case.matrix;
    let text = original::print_matrix(matrix);
    let read = reader::read(text.as_bytes());
    let damaged = damage::damaged(random, &text, Bytes::Any);
    let prints_back = |matrix| original::print_matrix(&matrix).as_bytes() == damaged;
    first([
        ("read", refuse::of_matrix(matrix).is_some() || read.as_ref() == Ok(matrix)),
        ("damaged read", reader::read(&damaged).map_or(true, prints_back)),
    ])
}
