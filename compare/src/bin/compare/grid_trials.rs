//! Grid entries on many grids, with sound and with damaged calls.

mod accumulations;
mod all_outlets;
mod case;
mod damages;
mod larger;
mod outlets;

use std::cmp::Reverse;

use second_reading::random::Random;

use crate::calls::Comparison;
use crate::grounds::{self, Grid};
use accumulations::nearly_agreeing;
use all_outlets::around_all_needs;
use case::{around_needs, drawings, Case};
use damages::damaged;
use outlets::outlets_for;

pub use larger::larger_grids;
pub use outlets::outlet_edges;

/// Every grid of up to four cells, each solid cell an outlet in turn.
pub fn every_small_grid(comparison: &mut Comparison, random: &mut Random) {
    const CODES: [u8; 10] = [0, 1, 2, 4, 8, 16, 32, 64, 128, 255];
    for (rows, cols) in [(1, 1), (1, 2), (2, 1), (1, 3), (3, 1), (2, 2)] {
        let cells = rows * cols;
        for number in 0..10usize.pow(cells as u32) {
            let codes = (0..cells as u32).map(|cell| CODES[number / 10usize.pow(cell) % 10]);
            let grid = Grid { kind: "every small grid", rows, cols, codes: codes.collect() };
            comparison.about(format!("every small grid, {rows} x {cols}"));
            comparison.accumulate(rows, cols, &grid.codes, cells);
            let accumulation = nearly_agreeing(grid.ground());
            for outlet in grid.ground().solid() {
                let mut outlets = vec![outlet as u32];
                let other = random.below(cells);
                if other != outlet && !grid.ground().is_null(other) {
                    outlets.push(other as u32);
                }
                let start = random.below(cells) as u32;
                let case = Case::new(&grid, &accumulation, &outlets, 0, start, random);
                case.every_entry(comparison, random);
                if !grid.ground().has_ring() {
                    around_all_needs(comparison, &case, 2, random);
                }
            }
        }
    }
}

/// Grids of all kinds with sides up to 64.
pub fn many_grids(comparison: &mut Comparison, count: usize, random: &mut Random) {
    for turn in 0..count {
        let most = match turn % 20 {
            0 => 64,
            1..=3 => 32,
            4..=9 => 14,
            _ => 6,
        };
        let (rows, cols) = if random.one_in(12) {
            let long = random.between(1, (most * most).min(500));
            random.pick(&[(1, long), (long, 1), (2, long), (long, 2)])
        } else {
            (random.between(1, most), random.between(1, most))
        };
        let grid = grounds::any(rows, cols, random);
        on_grid(comparison, &grid, random);
    }
}

/// Trees over the whole of small grids, so that much of a subwatershed is off
/// its divide: by the mouth alone, and with some cells more.
pub fn whole_trees(comparison: &mut Comparison, random: &mut Random) {
    for turn in 0..1500 {
        let most = if turn % 10 == 0 { 20 } else { 8 };
        let grid = grounds::tree(random.between(3, most), random.between(3, most), random);
        comparison.about(format!("{} {} x {}", grid.kind, grid.rows, grid.cols));
        let accumulation = grid.ground().accumulation();
        let mut cells: Vec<u32> = grid.ground().solid().map(|cell| cell as u32).collect();
        cells.sort_by_key(|&cell| Reverse(accumulation[cell as usize]));
        let mut list = vec![cells.remove(0)];
        for _ in 0..3 {
            let place = random.below(list.len());
            let case = Case::new(&grid, &accumulation, &list, place, list[place], random);
            case.every_entry(comparison, random);
            around_needs(comparison, &case, 2, random);
            around_all_needs(comparison, &case, 4, random);
            list.push(cells.remove(random.below(cells.len())));
        }
    }
}

/// How many cases are worth trying on a grid of that size.
fn effort(cells: usize) -> usize {
    match cells {
        0..=40 => 4,
        41..=200 => 3,
        201..=1100 => 2,
        _ => 1,
    }
}

/// All entries on one grid.
fn on_grid(comparison: &mut Comparison, grid: &Grid, random: &mut Random) {
    comparison.about(format!("{} {} x {}", grid.kind, grid.rows, grid.cols));
    let solid: Vec<u32> = grid.ground().solid().map(|cell| cell as u32).collect();
    let effort = effort(grid.cells());
    if grid.ground().has_ring() {
        let accumulation = nearly_agreeing(grid.ground());
        let outlets = vec![random.pick(&solid)];
        let case = Case::new(grid, &accumulation, &outlets, 0, outlets[0], random);
        case.every_entry(comparison, random);
        damaged(comparison, &case, 2 * effort, random);
        return;
    }
    let accumulation = grid.ground().accumulation();
    if solid.is_empty() {
        for outlets in [vec![], vec![0], vec![0, 0]] {
            let case = Case::new(grid, &accumulation, &[], 0, 0, random);
            let case = Case { outlets, ..case };
            case.every_entry(comparison, random);
            damaged(comparison, &case, effort, random);
        }
        return;
    }
    for _ in 0..effort {
        let outlets = outlets_for(grid, &accumulation, random);
        let mut places = vec![0, outlets.len() - 1, random.below(outlets.len())];
        places.sort();
        places.dedup();
        places.truncate(effort);
        for place in places {
            let case = Case::new(grid, &accumulation, &outlets, place, outlets[place], random);
            case.every_entry(comparison, random);
            around_needs(comparison, &case, effort, random);
            drawings(comparison, &case, effort, random);
        }
        let place = random.below(outlets.len());
        let start = random.pick(&solid);
        let case = Case::new(grid, &accumulation, &outlets, place, start, random);
        around_all_needs(comparison, &case, 7 * effort, random);
        damaged(comparison, &case, 2 * effort, random);
    }
}
