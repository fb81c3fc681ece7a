//! A small grid with its answers.

use second_reading::entries::Terrain;

use crate::grounds::Grid;

/// The answer for one outlet of a trap.
pub struct Answer {
    /// Cells of the subwatershed; all are visited without dropping.
    pub cells: u32,
    pub length: (u32, u32),
    pub starts: &'static [u32],
    /// With dropping.
    pub visited: u32,
    pub dropped: u32,
}

#[derive(Clone, Copy)]
pub struct Trap {
    pub name: &'static str,
    pub rows: usize,
    pub cols: usize,
    pub codes: &'static [u8],
    pub accumulation: &'static [u32],
    pub outlets: &'static [u32],
    pub answers: &'static [Answer],
}

pub const fn answer(
    cells: u32,
    length: (u32, u32),
    starts: &'static [u32],
    visited: u32,
    dropped: u32,
) -> Answer {
    Answer { cells, length, starts, visited, dropped }
}

impl Trap {
    pub fn terrain(&self) -> Terrain<'static> {
        let Trap { rows, cols, codes, accumulation, .. } = *self;
        Terrain { rows, cols, codes, accumulation }
    }

    pub fn grid(&self) -> Grid {
        let Trap { name, rows, cols, codes, .. } = *self;
        Grid { kind: name, rows, cols, codes: codes.to_vec() }
    }
}
