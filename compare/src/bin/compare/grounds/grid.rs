//! A grid of codes: its cells, its neighbours, and the grid turned.

use second_reading::ground::{way_of, Ground, NEIGHBOURS, NULL};
use second_reading::random::Random;

#[derive(Clone, Debug)]
pub struct Grid {
    pub kind: &'static str,
    pub rows: usize,
    pub cols: usize,
    pub codes: Vec<u8>,
}

impl Grid {
    /// A grid of null cells.
    pub fn null(kind: &'static str, rows: usize, cols: usize) -> Grid {
        Grid { kind, rows, cols, codes: vec![NULL; rows * cols] }
    }

    pub fn ground(&self) -> Ground<'_> {
        Ground::new(self.rows, self.cols, &self.codes)
    }

    pub fn cells(&self) -> usize {
        self.codes.len()
    }

    pub fn neighbour(&self, cell: usize, way: usize) -> Option<usize> {
        self.ground().neighbour(cell, way)
    }

    /// The codes that lead from a cell off the grid or to a null cell of
    /// `null`.
    pub fn ends(&self, cell: usize, null: &[bool]) -> Vec<u8> {
        let ends = |&way: &usize| self.neighbour(cell, way).is_none_or(|next| null[next]);
        (0..8).filter(ends).map(|way| 1 << way).collect()
    }

    /// Makes one cell in `one_in` null or a pond; no ring can come of it.
    pub fn sprinkle(&mut self, null_or_pond: u8, one_in: usize, random: &mut Random) {
        for code in &mut self.codes {
            if random.one_in(one_in) {
                *code = null_or_pond;
            }
        }
    }

    /// Rows for columns.
    pub fn transposed(&self) -> Grid {
        let mut turned = Grid::null(self.kind, self.cols, self.rows);
        for row in 0..self.rows {
            for col in 0..self.cols {
                let code = self.codes[row * self.cols + col];
                turned.codes[col * self.rows + row] = changed(code, |(down, right)| (right, down));
            }
        }
        turned
    }

    /// East for west.
    pub fn mirrored(&self) -> Grid {
        let mut turned = Grid::null(self.kind, self.rows, self.cols);
        for row in 0..self.rows {
            for col in 0..self.cols {
                let code = self.codes[row * self.cols + col];
                turned.codes[row * self.cols + self.cols - 1 - col] =
                    changed(code, |(down, right)| (down, -right));
            }
        }
        turned
    }
}

/// The code after its step's row and column change has been changed. Null cells
/// and ponds, which have no step, stay.
fn changed(code: u8, change: impl Fn((isize, isize)) -> (isize, isize)) -> u8 {
    way_of(code).map_or(code, |way| code_of(change(NEIGHBOURS[way])))
}

/// The code of a step.
pub fn code_of(step: (isize, isize)) -> u8 {
    let way = NEIGHBOURS.iter().position(|&neighbour| neighbour == step);
    1 << way.expect("a step to a neighbour")
}

/// The code that leads back from the neighbour that way.
pub fn back(way: usize) -> u8 {
    1 << ((way + 4) % 8)
}
