//! 01's bench settings 1 to 10, its words beside the original's answers.

use crate::case::{Case, Matrix, Merge};
use crate::{Net, Trit, model, original, reader, refuse};

/// What 01 says and what came out, as text.
struct Checked {
    said: String,
    found: String,
}

/// Prints a line for each setting; true if all passed.
pub fn run() -> bool {
    let settings = [first, second, third, fourth, fifth, sixth, seventh, eighth, ninth, tenth];
    let mut failed = 0;
    for (place, setting) in settings.iter().enumerate() {
        let Checked { said, found } = setting();
        if said == found {
            println!("setting {}: passed", place + 1);
        } else {
            failed += 1;
            println!("setting {}: failed; 01 says {said:?}, found {found:?}", place + 1);
        }
    }
    println!("{} passed, {failed} failed", settings.len() - failed);
    failed == 0
}

fn matrix(text: &str) -> Matrix {
    reader::read(text.as_bytes()).expect("a setting is a printed matrix")
}

fn case(text: &str, enable: Net) -> Case {
    Case { family: "setting", matrix: matrix(text), enable, merge: None }
}

fn checked(said: &str, found: String) -> Checked {
    Checked { said: said.into(), found }
}

fn tree_of(case: &Case) -> String {
    original::print_tree(&original::tree(case))
}

fn first() -> Checked {
    let case = case("[ %1 %0 ]:\n  00 => %10\n  10 => %10\n  XX => %11\n", Net::ONE);
    let emission = original::one_hot(&original::tree(&case), &[Net::cell(10), Net::cell(11)]);
    let muxes = emission.muxes.iter().map(|mux| format!("{} {} {}\n", mux.select, mux.one, mux.zero));
    let found = format!("{}peak {}\n{}", tree_of(&case), model::peak(&case), String::from_iter(muxes));
    checked("%0 = 0 => %10\n%0 = 1 => %11\npeak 3\n%0 0 1\n%0 1 0\n", found)
}

fn second() -> Checked {
    let case = case("[ %0 ]:\n  1 => %10\n  X => (empty)\n", Net::cell(5));
    let found = format!("{}{} nodes", tree_of(&case), original::tree(&case).size());
    checked("%5 = 1 =>\n  %0 = 1 => %10\n5 nodes", found)
}

fn third() -> Checked {
    let case = case("[ %0 ]:\n  1 => %10\n  X => (empty)\n", Net::UNDEF);
    checked("=> (empty)\n", tree_of(&case))
}

fn fourth() -> Checked {
    let case = case("[ X ]:\n  1 => %10\n  X => %11\n", Net::ONE);
    checked("=> %11\n", tree_of(&case))
}

fn fifth() -> Checked {
    let case = case("[ %0 %0 ]:\n  1X => %10\n  01 => %12\n  XX => %11\n", Net::ONE);
    checked("%0 = 0 => %11\n%0 = 1 => %10\n", tree_of(&case))
}

/// A store of 1 is refused and one of 2 is answered: the peak is 2.
fn sixth() -> Checked {
    let case = case("[ 0 %0 ]:\n  0X => %10\n  X0 => %11\n  XX => %12\n", Net::ONE);
    let normalized = original::print_matrix(&original::normalized(&case));
    let fits = [1, 2].map(|store| model::grow(&case, store).is_some());
    let found = format!("{normalized}{}{fits:?}", tree_of(&case));
    checked("[ %0 ]:\n  X => %10\n  0 => %11\n  X => %12\n=> %10\n[false, true]", found)
}

/// 01 refuses 6 where the original lets the lone row answer.
fn seventh() -> Checked {
    let case = case("[ %0 ]:\n  1 => %10\n", Net::ONE);
    let refused = refuse::dispatch(&case).err();
    checked("Some(6), the original => %10\n", format!("{refused:?}, the original {}", tree_of(&case)))
}

fn eighth() -> Checked {
    checked("=> %10\n", tree_of(&case("[ ]:\n   => %10\n", Net::ONE)))
}

fn ninth() -> Checked {
    let case = case("[ %0 ]:\n  0 => %10 %12\n  X => %11 %12\n", Net::ONE);
    let emission = original::one_hot(&original::tree(&case), &original::outputs(&case.matrix));
    let trits = model::evaluate(&emission, |_| Trit::Undef);
    checked("X X 1", trits.iter().map(Trit::to_string).collect::<Vec<_>>().join(" "))
}

fn tenth() -> Checked {
    let parent = matrix("[ %0 ]:\n  1 => %10\n  X => (empty)\n");
    let child = matrix("[ %1 ]:\n  1 => %20\n  X => (empty)\n");
    let merged = original::merge(&Merge { parent, at: Net::cell(10), child });
    checked("[ %1 %0 ]:\n  11 => %10 %20\n  X1 => %10\n  XX => (empty)\n", original::print_matrix(&merged))
}
