//! Grids made cell by cell: each code for itself, or the same everywhere.

use second_reading::ground::{NULL, POND};
use second_reading::random::Random;

use super::grid::{code_of, Grid};

/// Any codes at all, mostly with rings.
pub fn noise(rows: usize, cols: usize, random: &mut Random) -> Grid {
    let mut grid = Grid::null("noise", rows, cols);
    grid.codes.iter_mut().for_each(|code| *code = 1 << random.below(8));
    grid.sprinkle(NULL, 9, random);
    grid
}

/// Any codes with many null cells, so that rings are rarer.
pub fn sparse_noise(rows: usize, cols: usize, random: &mut Random) -> Grid {
    let mut grid = noise(rows, cols, random);
    grid.kind = "sparse noise";
    grid.sprinkle(NULL, 2, random);
    grid
}

/// Each cell flows to one of three neighbours in the next row: many ties.
pub fn slope(rows: usize, cols: usize, random: &mut Random) -> Grid {
    let mut grid = Grid::null("slope", rows, cols);
    let steps = random.pick(&[[-1, 0, 1], [-1, -1, 1], [0, 0, 1], [-1, 1, 1]]);
    for code in &mut grid.codes {
        *code = code_of((1, random.pick(&steps)));
    }
    grid
}

/// A slope of which every other cell or so is a pond.
pub fn pools(rows: usize, cols: usize, random: &mut Random) -> Grid {
    let mut grid = slope(rows, cols, random);
    grid.kind = "pools";
    grid.sprinkle(POND, 2, random);
    grid
}

/// Each cell flows east, south-east or south.
pub fn corner_slope(rows: usize, cols: usize, random: &mut Random) -> Grid {
    let mut grid = Grid::null("corner slope", rows, cols);
    for code in &mut grid.codes {
        *code = code_of(random.pick(&[(0, 1), (1, 1), (1, 0)]));
    }
    grid
}

/// The same code everywhere.
pub fn plain(rows: usize, cols: usize, random: &mut Random) -> Grid {
    let mut grid = Grid::null("plain", rows, cols);
    grid.codes.fill(1 << random.below(8));
    grid
}
