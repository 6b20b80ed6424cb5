//! The types that the original's text leaves out: nets and values here, designs below.

mod design;

use std::fmt;
use std::ops::{Bound, Deref, RangeBounds};

use crate::Trit;

pub use design::{Cell, CellRef, Design, Mux};

/// A constant or a cell. The order is 0, 1, X, then the cells by number.
#[derive(Clone, Copy, PartialEq, Eq, PartialOrd, Ord, Hash)]
pub struct Net {
    code: u32,
}

const FIRST_CELL: u32 = 3;

impl Net {
    pub const ZERO: Net = Net { code: 0 };
    pub const ONE: Net = Net { code: 1 };
    pub const UNDEF: Net = Net { code: 2 };

    pub const fn cell(number: u32) -> Net {
        Net { code: FIRST_CELL + number }
    }

    pub fn is_cell(self) -> bool {
        self.code >= FIRST_CELL
    }

    pub fn as_const(self) -> Option<Trit> {
        Trit::try_from(self).ok()
    }

    /// The cell's number, where it is a cell.
    pub fn number(self) -> Option<u32> {
        self.code.checked_sub(FIRST_CELL)
    }

    /// 0, 1, 2 for the constants 0, 1, X and 3 + n for cell n.
    pub fn code(self) -> u32 {
        self.code
    }

    pub fn visit(&self, mut f: impl FnMut(Net)) {
        f(*self)
    }

    pub fn visit_mut(&mut self, mut f: impl FnMut(&mut Net)) {
        f(self)
    }
}

impl From<Trit> for Net {
    fn from(trit: Trit) -> Net {
        match trit {
            Trit::Zero => Net::ZERO,
            Trit::One => Net::ONE,
            Trit::Undef => Net::UNDEF,
        }
    }
}

impl fmt::Display for Net {
    fn fmt(&self, f: &mut fmt::Formatter) -> fmt::Result {
        match (self.as_const(), self.number()) {
            (None, Some(number)) => write!(f, "%{number}"),
            (Some(trit), _) => write!(f, "{trit}"),
            (None, None) => unreachable!("a net is a constant or a cell"),
        }
    }
}

impl fmt::Debug for Net {
    fn fmt(&self, f: &mut fmt::Formatter) -> fmt::Result {
        fmt::Display::fmt(self, f)
    }
}

/// A row of nets, bit 0 first.
#[derive(Debug, Clone, PartialEq, Eq, PartialOrd, Ord, Hash, Default)]
pub struct Value {
    nets: Vec<Net>,
}

impl Value {
    pub fn iter(&self) -> impl DoubleEndedIterator<Item = Net> + ExactSizeIterator + '_ {
        self.nets.iter().copied()
    }

    pub fn push(&mut self, net: Net) {
        self.nets.push(net);
    }

    pub fn slice(&self, range: impl RangeBounds<usize>) -> Value {
        let bounds: (Bound<usize>, Bound<usize>) = (range.start_bound().cloned(), range.end_bound().cloned());
        Value::from(self.nets[bounds].to_vec())
    }

    pub fn visit(&self, f: impl FnMut(Net)) {
        self.iter().for_each(f)
    }

    pub fn visit_mut(&mut self, f: impl FnMut(&mut Net)) {
        self.nets.iter_mut().for_each(f)
    }
}

impl Deref for Value {
    type Target = [Net];

    fn deref(&self) -> &[Net] {
        &self.nets
    }
}

impl From<Vec<Net>> for Value {
    fn from(nets: Vec<Net>) -> Value {
        Value { nets }
    }
}

impl From<&Value> for Value {
    fn from(value: &Value) -> Value {
        value.clone()
    }
}

impl FromIterator<Net> for Value {
    fn from_iter<T: IntoIterator<Item = Net>>(nets: T) -> Value {
        Value { nets: nets.into_iter().collect() }
    }
}

impl Extend<Net> for Value {
    fn extend<T: IntoIterator<Item = Net>>(&mut self, nets: T) {
        self.nets.extend(nets)
    }
}

impl IntoIterator for Value {
    type Item = Net;
    type IntoIter = std::vec::IntoIter<Net>;

    fn into_iter(self) -> Self::IntoIter {
        self.nets.into_iter()
    }
}

impl IntoIterator for &Value {
    type Item = Net;
    type IntoIter = std::vec::IntoIter<Net>;

    fn into_iter(self) -> Self::IntoIter {
        self.nets.clone().into_iter()
    }
}

/// 01's value line without its colon: highest bit first.
impl fmt::Display for Value {
    fn fmt(&self, f: &mut fmt::Formatter) -> fmt::Result {
        write!(f, "[")?;
        for net in self.iter().rev() {
            write!(f, " {net}")?;
        }
        write!(f, " ]")
    }
}
