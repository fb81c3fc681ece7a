//! Ponds laid into a grid.

use second_reading::ground::POND;
use second_reading::random::Random;

use super::grid::{back, Grid};

/// The grid with ponds as well, few or many: anywhere, where walks end, or each
/// amidst its inflows. No ring can come of it.
pub fn with_ponds(mut grid: Grid, random: &mut Random) -> Grid {
    match random.below(3) {
        0 => {
            let one_in = random.pick(&[3, 10, 50]);
            grid.sprinkle(POND, one_in, random);
        }
        1 => pond_mouths(&mut grid, random),
        _ => {
            for _ in 0..random.between(1, 3) {
                let cell = random.below(grid.cells());
                pond_amidst(&mut grid, cell);
            }
        }
    }
    grid
}

/// Makes ponds of all cells that flow into none, or of some. All other walks
/// stay as they are.
fn pond_mouths(grid: &mut Grid, random: &mut Random) {
    let ground = grid.ground();
    let mouths: Vec<usize> = ground.solid().filter(|&cell| ground.below(cell).is_none()).collect();
    let one_in = random.between(1, 3);
    for mouth in mouths {
        if random.one_in(one_in) {
            grid.codes[mouth] = POND;
        }
    }
}

/// Makes a pond of a cell, and turns all cells around towards it.
fn pond_amidst(grid: &mut Grid, cell: usize) {
    grid.codes[cell] = POND;
    for way in 0..8 {
        if let Some(next) = grid.neighbour(cell, way) {
            grid.codes[next] = back(way);
        }
    }
}
