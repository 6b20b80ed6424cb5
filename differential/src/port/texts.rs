//! Prints byte for byte the original's, and the reader.

use super::compare::{Asked, Held};
use super::flat::{CLEAN, flat};
use super::foreign::{self, Answered, ReadMade};
use super::handed;
use super::store::{self, RUN};
use crate::case::{Matrix, Tree};
use crate::damage::{self, Bytes};
use crate::{original, reader, refuse};

pub const PRINT: &str = "print of a matrix";
pub const PRINT_TREE: &str = "print of a tree";
pub const READ: &str = "read of a print";
pub const DAMAGED: &str = "read of a damaged print";

/// Fills a buffer: no print has this byte.
const OLD: u8 = 0xee;

/// The matrix printed, its print read, and a damaged print read.
pub fn hold(asked: &mut Asked) -> Held {
    let matrix = &asked.told.case.matrix;
    let given = flat(matrix, asked.past);
    let text = original::print_matrix(matrix);
    let refused = refuse::of_matrix(matrix);
    of_buffers(asked, PRINT, refused, text.as_bytes(), |out| foreign::print(given, out))?;
    let read = if refused.is_none() { Ok(matrix.clone()) } else { reader::read(text.as_bytes()) };
    of_text(asked, READ, text.as_bytes(), read)?;
    let damaged = damage::damaged(asked.random, &text, Bytes::Any);
    of_text(asked, DAMAGED, &damaged, reader::read(&damaged))
}

/// The tree's print; where no tree is, nothing is written.
pub fn hold_tree(asked: &mut Asked, tree: &Tree) -> Held {
    let store = store::numbers(tree);
    let root = store.len() / RUN - 1;
    let refused = handed::tree(&store, root).is_none().then_some(refuse::FORM);
    let text = original::print_tree(tree);
    of_buffers(asked, PRINT_TREE, refused, text.as_bytes(), |out| foreign::print_tree(&store, root, out))
}

/// A buffer that is just long enough, a longer one, and one that is a byte short.
fn of_buffers(
    asked: &mut Asked,
    subject: &'static str,
    refused: Option<u8>,
    text: &[u8],
    print: impl Fn(&mut [u8]) -> Answered,
) -> Held {
    let longer = text.len() + asked.random.between(1, 9);
    for length in [Some(text.len()), Some(longer), text.len().checked_sub(1)].into_iter().flatten() {
        let refused = refused.or((length < text.len()).then_some(refuse::ROOM));
        let written = if refused.is_none() { text } else { &[] };
        let wanted = [written, &vec![OLD; length - written.len()]].concat();
        let mut out = vec![OLD; length];
        let answer = print(&mut out);
        let equal = answer == Answered { no: refused.unwrap_or(0), value: written.len() };
        asked.hold(subject, equal && out == wanted)?;
    }
    Ok(())
}

/// The matrix that was printed, or the line that 01's reader names.
fn of_text(asked: &mut Asked, subject: &'static str, text: &[u8], read: Result<Matrix, usize>) -> Held {
    let wanted = match read {
        Ok(matrix) => ReadMade { no: 0, line: 0, matrix: flat(&matrix, CLEAN) },
        Err(line) => ReadMade { no: refuse::LINE, line, matrix: flat(&Matrix::default(), CLEAN) },
    };
    asked.hold(subject, foreign::read(text) == wanted)
}
