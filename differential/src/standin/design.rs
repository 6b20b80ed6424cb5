//! A design as a list of cells, each with the nets it drives, and a table of muxes.

use std::cell::RefCell;
use std::collections::BTreeMap;
use std::fmt;

use super::{Net, Value};
use crate::case::FIRST_MUX;
use crate::{AssignCell, MatchCell};

#[derive(Debug, Clone, PartialEq, Eq)]
pub enum Cell {
    Match(MatchCell),
    Assign(AssignCell),
}

/// `one` where `select` is 1, `zero` where it is 0.
#[derive(Debug, Clone, Copy, PartialEq, Eq)]
pub struct Mux {
    pub select: Net,
    pub one: Net,
    pub zero: Net,
}

/// Nets that no cell of the list drives are its inputs.
#[derive(Debug, Clone, Default)]
pub struct Design {
    cells: Vec<(Value, Cell)>,
    drivers: BTreeMap<Net, (usize, usize)>,
    muxes: RefCell<Vec<Mux>>,
    replaced: RefCell<BTreeMap<Net, Net>>,
}

/// Kept by the original while it adds cells; there is no metadata here.
pub struct MetadataGuard;

impl Design {
    pub fn new() -> Design {
        Design::default()
    }

    /// Puts a cell at the end of the list; `output` are the nets it drives, bit 0 first.
    pub fn add_cell(&mut self, output: impl Into<Value>, cell: Cell) {
        let (output, place) = (output.into(), self.cells.len());
        for (offset, net) in output.iter().enumerate() {
            assert!(net.is_cell(), "a constant is not driven");
            assert!(self.drivers.insert(net, (place, offset)).is_none(), "{net} is driven twice");
        }
        self.cells.push((output, cell));
    }

    pub fn iter_cells(&self) -> impl Iterator<Item = CellRef<'_>> {
        (0..self.cells.len()).map(|place| CellRef { design: self, place })
    }

    /// The cell that drives the net and the bit it drives it with, else the net itself.
    pub fn find_cell(&self, net: Net) -> Result<(CellRef<'_>, usize), Net> {
        let &(place, offset) = self.drivers.get(&net).ok_or(net)?;
        Ok((CellRef { design: self, place }, offset))
    }

    /// One mux a bit, bit 0 first; nothing is simplified.
    pub fn add_mux(&self, select: Net, one: impl Into<Value>, zero: impl Into<Value>) -> Value {
        let (one, zero) = (one.into(), zero.into());
        assert_eq!(one.len(), zero.len());
        let bits = one.iter().zip(zero.iter());
        bits.map(|(one, zero)| self.push_mux(Mux { select, one, zero })).collect()
    }

    fn push_mux(&self, mux: Mux) -> Net {
        let mut muxes = self.muxes.borrow_mut();
        let place = u32::try_from(muxes.len()).expect("a table stays small");
        muxes.push(mux);
        Net::cell(FIRST_MUX + place)
    }

    pub fn replace_net(&self, from: Net, to: Net) {
        self.replaced.borrow_mut().insert(from, to);
    }

    pub fn replace_value(&self, from: impl Into<Value>, to: impl Into<Value>) {
        let (from, to) = (from.into(), to.into());
        assert_eq!(from.len(), to.len());
        from.iter().zip(to.iter()).for_each(|(from, to)| self.replace_net(from, to));
    }

    pub fn use_metadata_from(&self, _cells: &[CellRef]) -> MetadataGuard {
        MetadataGuard
    }

    pub fn display_cell(&self, cell_ref: CellRef) -> String {
        format!("{} = {:?}", cell_ref.output(), cell_ref.get())
    }

    /// Every operand and every replacement becomes what drives it in the end.
    pub fn compact(&mut self) {
        let replaced = self.replaced.get_mut();
        let last = |net: Net| driver(replaced, net);
        for mux in self.muxes.get_mut() {
            *mux = Mux { select: last(mux.select), one: last(mux.one), zero: last(mux.zero) };
        }
        let settled = replaced.keys().map(|&net| (net, driver(replaced, net))).collect();
        *replaced = settled;
    }

    pub fn muxes(&self) -> Vec<Mux> {
        self.muxes.borrow().clone()
    }

    /// What each replaced net became, ascending by net.
    pub fn replaced(&self) -> BTreeMap<Net, Net> {
        self.replaced.borrow().clone()
    }
}

/// Follows replacements; a ring of them ends after as many steps as there are nets.
fn driver(replaced: &BTreeMap<Net, Net>, net: Net) -> Net {
    (0..replaced.len()).fold(net, |at, _| *replaced.get(&at).unwrap_or(&at))
}

/// A place in the design's list; the order is the list's.
#[derive(Clone, Copy)]
pub struct CellRef<'a> {
    design: &'a Design,
    place: usize,
}

impl<'a> CellRef<'a> {
    pub fn get(&self) -> &'a Cell {
        &self.design.cells[self.place].1
    }

    pub fn output(&self) -> Value {
        self.design.cells[self.place].0.clone()
    }

    pub fn place(&self) -> usize {
        self.place
    }
}

impl PartialEq for CellRef<'_> {
    fn eq(&self, other: &Self) -> bool {
        self.place == other.place
    }
}

impl Eq for CellRef<'_> {}

impl PartialOrd for CellRef<'_> {
    fn partial_cmp(&self, other: &Self) -> Option<std::cmp::Ordering> {
        Some(self.cmp(other))
    }
}

impl Ord for CellRef<'_> {
    fn cmp(&self, other: &Self) -> std::cmp::Ordering {
        self.place.cmp(&other.place)
    }
}

impl fmt::Debug for CellRef<'_> {
    fn fmt(&self, f: &mut fmt::Formatter) -> fmt::Result {
        write!(f, "cell {}", self.place)
    }
}
