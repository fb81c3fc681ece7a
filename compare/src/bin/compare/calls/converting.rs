//! Converting codes from table to table.

use second_reading::entries;

use super::{number, Comparison};
use crate::tally::Entry;

/// Everything that a converting call takes.
#[derive(Clone)]
pub struct Conversion {
    pub from: u32,
    pub to: u32,
    pub rows: usize,
    pub cols: usize,
    pub codes: Vec<u8>,
    /// Places of the written grid.
    pub room: usize,
}

impl Conversion {
    /// A call that lends a place for each code.
    pub fn new((from, to): (u32, u32), rows: usize, cols: usize, codes: &[u8]) -> Conversion {
        Conversion { from, to, rows, cols, codes: codes.to_vec(), room: codes.len() }
    }
}

impl Comparison {
    /// The number, and the written grid.
    pub fn convert(&mut self, call: &Conversion) -> (u32, Vec<u8>) {
        let &Conversion { from, to, rows, cols, ref codes, room } = call;
        let codes = self.input("codes", codes);
        let mut grid = self.output("converted", room);
        let answer = entries::convert(from, to, rows, cols, codes.contents, &mut grid.due);
        let found = self.on_small_stack(codes.contents.len(), || {
            jinxbanyan::convert(from, to, rows, cols, codes.lent.slice(), grid.lent.slice_mut())
        });
        let due = number(answer);
        let arguments = format_args!("from {from} to {to} rows {rows} cols {cols}");
        self.settle(Entry::Convert, arguments, &[&codes, &grid], due, found);
        (due, grid.due)
    }
}
