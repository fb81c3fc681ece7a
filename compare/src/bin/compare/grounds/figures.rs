//! Grids drawn by rule: a comb, a fan, a serpent.

use second_reading::ground::{NULL, POND};
use second_reading::random::Random;

use super::grid::{code_of, Grid};

/// A spine to the west with teeth from one or both sides.
pub fn comb(rows: usize, cols: usize, random: &mut Random) -> Grid {
    let mut grid = Grid::null("comb", rows, cols);
    let spine = random.below(rows);
    let gap = random.between(1, 3);
    let ragged = random.one_in(2);
    for col in 0..cols {
        grid.codes[spine * cols + col] = code_of((0, -1));
        if col % gap != 0 {
            continue;
        }
        let lean = random.pick(&[0, 0, -1]);
        let reach = if ragged { random.below(rows + 1) } else { rows };
        for row in (0..rows).filter(|&row| row != spine && row.abs_diff(spine) <= reach) {
            let down = if row < spine { 1 } else { -1 };
            let lean = if row.abs_diff(spine) == 1 { lean } else { 0 };
            grid.codes[row * cols + col] = code_of((down, lean));
        }
    }
    grid
}

/// All cells flow to one, diagonally first or straight first. That one is a
/// pond, or else, where it lies inside, a neighbour is null so that its walk
/// ends.
pub fn fan(rows: usize, cols: usize, random: &mut Random) -> Grid {
    let mut grid = Grid::null("fan", rows, cols);
    let middle = random.below(grid.cells());
    let straight_first = random.one_in(2);
    let (to_row, to_col) = ((middle / cols) as isize, (middle % cols) as isize);
    for cell in (0..grid.cells()).filter(|&cell| cell != middle) {
        let down = to_row - (cell / cols) as isize;
        let right = to_col - (cell % cols) as isize;
        grid.codes[cell] = if straight_first && down.abs() > right.abs() {
            code_of((down.signum(), 0))
        } else if straight_first && right.abs() > down.abs() {
            code_of((0, right.signum()))
        } else {
            code_of((down.signum(), right.signum()))
        };
    }
    if random.one_in(3) {
        grid.codes[middle] = POND;
        return grid;
    }
    let way = random.below(8);
    grid.codes[middle] = 1 << way;
    if let Some(next) = grid.neighbour(middle, way) {
        grid.codes[next] = NULL;
    }
    grid
}

/// One walk through all cells, row by row, at times cut by a null cell or a
/// pond.
pub fn serpent(rows: usize, cols: usize, random: &mut Random) -> Grid {
    let mut grid = Grid::null("serpent", rows, cols);
    for row in 0..rows {
        let right: isize = if row % 2 == 0 { 1 } else { -1 };
        for col in 0..cols {
            let last = if right == 1 { col + 1 == cols } else { col == 0 };
            let step = if last { (1, 0) } else { (0, right) };
            grid.codes[row * cols + col] = code_of(step);
        }
    }
    if random.one_in(3) {
        let cut = random.below(grid.cells());
        grid.codes[cut] = random.pick(&[NULL, POND]);
    }
    grid
}
