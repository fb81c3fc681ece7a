//! Grids that flow down from height to height.

use std::cmp::Reverse;
use std::collections::BinaryHeap;

use second_reading::ground::{NULL, POND};
use second_reading::random::Random;

use super::grid::{back, Grid};

/// Each cell flows to a lower one of random heights, to the lowest or to any;
/// hollows become null, or all of them ponds.
pub fn drainage(rows: usize, cols: usize, random: &mut Random) -> Grid {
    let mut grid = Grid::null("drainage", rows, cols);
    let cells = grid.cells();
    let tilt = random.pick(&[0, 1, 4]);
    let steep = random.one_in(2);
    let height: Vec<(usize, usize)> = (0..cells)
        .map(|cell| (random.below(16) + tilt * (cell / cols + cell % cols), cell))
        .collect();
    let null = vec![false; cells];
    let hollow = random.pick(&[NULL, POND]);
    for cell in 0..cells {
        let mut lower: Vec<usize> = (0..8)
            .filter(|&way| {
                grid.neighbour(cell, way).is_some_and(|next| height[next] < height[cell])
            })
            .collect();
        if steep {
            lower.sort_by_key(|&way| grid.neighbour(cell, way).map(|next| height[next]));
            lower.truncate(1);
        }
        let mut codes: Vec<u8> = lower.into_iter().map(|way| 1 << way).collect();
        if codes.is_empty() {
            codes = grid.ends(cell, &null);
        }
        grid.codes[cell] = if codes.is_empty() { hollow } else { random.pick(&codes) };
    }
    grid
}

/// Valleys of all sizes: heights by noise of halving reach, flooded from the
/// edges and from null cells inward.
pub fn valleys(rows: usize, cols: usize, random: &mut Random) -> Grid {
    flooded("valleys", (rows, cols), usize::MAX, random)
}

/// Valleys that are flooded from ponds as well, many or few.
pub fn basins(rows: usize, cols: usize, random: &mut Random) -> Grid {
    let pond_in = random.pick(&[10, 100, 1000]);
    flooded("basins", (rows, cols), pond_in, random)
}

/// Valleys with one cell in `pond_in` a pond.
fn flooded(
    kind: &'static str,
    (rows, cols): (usize, usize),
    pond_in: usize,
    random: &mut Random,
) -> Grid {
    let mut grid = Grid::null(kind, rows, cols);
    let cells = grid.cells();
    let mut height = vec![0u64; cells];
    let mut reach = rows.max(cols).next_power_of_two();
    while reach >= 1 {
        let across = cols / reach + 2;
        let knots: Vec<u64> = (0..(rows / reach + 2) * across)
            .map(|_| random.below(256) as u64 * reach as u64)
            .collect();
        for (cell, height) in height.iter_mut().enumerate() {
            let (row, col) = (cell / cols, cell % cols);
            let (r, c) = (row / reach, col / reach);
            let (y, x) = ((row % reach) as u64, (col % reach) as u64);
            let whole = reach as u64;
            let knot = |r: usize, c: usize| knots[r * across + c];
            let upper = knot(r, c) * (whole - x) + knot(r, c + 1) * x;
            let lower = knot(r + 1, c) * (whole - x) + knot(r + 1, c + 1) * x;
            *height += (upper * (whole - y) + lower * y) / (whole * whole);
        }
        reach /= 2;
    }
    let one_in = random.pick(&[30, usize::MAX, usize::MAX]);
    let null: Vec<bool> = (0..cells).map(|_| random.one_in(one_in)).collect();
    let mut flood = BinaryHeap::new();
    for cell in (0..cells).filter(|&cell| !null[cell]) {
        let ends = grid.ends(cell, &null);
        if random.one_in(pond_in) {
            grid.codes[cell] = POND;
        } else if !ends.is_empty() && random.one_in(3) {
            grid.codes[cell] = random.pick(&ends);
        } else {
            continue;
        }
        flood.push(Reverse((height[cell], cell)));
    }
    while let Some(Reverse((_, cell))) = flood.pop() {
        for way in 0..8 {
            if let Some(next) = grid.neighbour(cell, way) {
                if !null[next] && grid.codes[next] == 0 {
                    grid.codes[next] = back(way);
                    flood.push(Reverse((height[next].max(height[cell]), next)));
                }
            }
        }
    }
    grid
}
