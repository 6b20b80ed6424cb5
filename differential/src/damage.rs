//! Printed texts with one thing wrong, for readers.

use crate::random::Random;

/// The bytes that printed matrices are made of.
const ALPHABET: &[u8] = b"[]:%=>_()empty0123456789X \n";

/// Which bytes may come in: those that print, with LF, or all 256.
#[derive(Clone, Copy, PartialEq, Eq)]
pub enum Bytes {
    Printable,
    Any,
}

/// One byte changed, dropped or inserted, the end cut off, or two lines swapped. The text isn't empty.
pub fn damaged(random: &mut Random, text: &str, bytes: Bytes) -> Vec<u8> {
    let mut damaged = text.as_bytes().to_vec();
    let place = random.below(damaged.len());
    match random.below(5) {
        0 => damaged[place] = byte(random, bytes),
        1 => drop(damaged.remove(place)),
        2 => damaged.insert(place, byte(random, bytes)),
        3 => damaged.truncate(place),
        _ => damaged = swapped(random, text),
    }
    damaged
}

fn byte(random: &mut Random, bytes: Bytes) -> u8 {
    match bytes {
        _ if random.chance(80) => random.pick(ALPHABET),
        Bytes::Printable => random.between(b' '.into(), b'~'.into()) as u8,
        Bytes::Any => random.below(256) as u8,
    }
}

fn swapped(random: &mut Random, text: &str) -> Vec<u8> {
    let mut lines: Vec<&str> = text.lines().collect();
    let (one, other) = (random.below(lines.len()), random.below(lines.len()));
    lines.swap(one, other);
    lines.iter().flat_map(|line| [line.as_bytes(), b"\n"].concat()).collect()
}
