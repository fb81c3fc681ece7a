//! Grounds of one walk, and full ones, each with its outlet.

use second_reading::ground::{NEIGHBOURS, POND};

use crate::grounds::{code_of, Grid};

pub type Place = (usize, usize);

/// Null ground but for one walk through the given places, the outlet last. The
/// outlet's own walk ends.
pub fn chain(rows: usize, cols: usize, walk: &[Place]) -> (Grid, u32) {
    let mut grid = Grid::null("chain", rows, cols);
    lay(&mut grid, walk);
    let (row, col) = walk[walk.len() - 1];
    let outlet = row * cols + col;
    let ground = grid.ground();
    let way = (0..8).find(|&way| ground.neighbour(outlet, way).is_none_or(|c| ground.is_null(c)));
    grid.codes[outlet] = 1 << way.expect("a way to end");
    (grid, outlet as u32)
}

/// Lays a walk through the given places; the last keeps its code.
pub fn lay(grid: &mut Grid, walk: &[Place]) {
    for pair in walk.windows(2) {
        let ((row, col), (to_row, to_col)) = (pair[0], pair[1]);
        let step = (to_row as isize - row as isize, to_col as isize - col as isize);
        grid.codes[row * grid.cols + col] = code_of(step);
    }
}

/// A straight walk of 4,096 cells that always enters by the same neighbour;
/// with a cell more, that one flows in at the top from beside.
pub fn straight_chain(way: usize, cells: usize) -> (Grid, u32) {
    const MOST: usize = 4096;
    let (down, right) = NEIGHBOURS[way];
    let beside = if cells > MOST { 2 } else { 1 };
    let rows = if down == 0 { beside } else { MOST };
    let cols = if right == 0 { beside } else { MOST };
    // From the outlet upward.
    let along = |change: isize, at: usize| match change {
        1 => at,
        -1 => MOST - 1 - at,
        _ => 0,
    };
    let mut walk: Vec<Place> =
        (0..MOST.min(cells)).map(|at| (along(down, at), along(right, at))).collect();
    if cells > MOST {
        let (row, col) = walk[MOST - 1];
        walk.push(if down == 0 { (1, col) } else { (row, if col == 0 { 1 } else { col - 1 }) });
    }
    walk.reverse();
    chain(rows, cols, &walk)
}

/// A walk that goes up and down along diagonals, 64 cells each.
pub fn diagonal_serpent(cells: usize) -> (Grid, u32) {
    const RUN: usize = 64;
    let diagonals = cells.div_ceil(RUN);
    let walk: Vec<Place> = (0..cells)
        .map(|at| {
            let (diagonal, along) = (at / RUN, at % RUN);
            let row = if diagonal % 2 == 0 { along } else { RUN - 1 - along };
            (row, row + diagonal)
        })
        .collect();
    chain(RUN, RUN + diagonals, &walk)
}

/// A walk that goes one column aside with each row.
pub fn zigzag(cells: usize) -> (Grid, u32) {
    const MOST: usize = 4096;
    let mut walk: Vec<Place> = (0..cells.min(MOST)).map(|row| (row, row % 2)).collect();
    if cells > MOST {
        walk.insert(0, (0, 1));
    }
    chain(MOST, 2, &walk)
}

/// Every cell flows to the north-west corner: rows first in all columns
/// (a comb), or by diagonals first (a fan), or in one line (a serpent).
pub fn full(rows: usize, cols: usize, kind: &'static str) -> (Grid, u32) {
    let mut grid = Grid::null(kind, rows, cols);
    for row in 0..rows {
        for col in 0..cols {
            let back = if row % 2 == 0 { -1 } else { 1 };
            let turn = if row % 2 == 0 { col == 0 } else { col + 1 == cols };
            let step = match kind {
                "full comb" if row > 0 => (-1, 0),
                "full fan" if row > 0 && col > 0 => (-1, -1),
                "full fan" if row > 0 => (-1, 0),
                "full serpent" if turn => (-1, 0),
                "full serpent" => (0, back),
                _ => (0, -1),
            };
            grid.codes[row * cols + col] = code_of(step);
        }
    }
    (grid, 0)
}

/// The grid after quarter turns, with its outlet, whose walk ends. After an odd
/// number it ends because the outlet is a pond.
pub fn turned(grid: &Grid, outlet: u32, turns: usize) -> (Grid, u32) {
    let mut turned = (grid.clone(), outlet as usize);
    for _ in 0..turns {
        let (grid, outlet) = turned;
        let (row, col) = (outlet / grid.cols, outlet % grid.cols);
        let quarter = grid.transposed().mirrored();
        let outlet = col * quarter.cols + (quarter.cols - 1 - row);
        turned = (quarter, outlet);
    }
    let (mut grid, outlet) = turned;
    if turns % 2 == 1 {
        grid.codes[outlet] = POND;
    }
    (grid, outlet as u32)
}
