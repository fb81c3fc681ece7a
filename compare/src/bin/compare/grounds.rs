//! Grids of many kinds from a seed. All but `noise`, `sparse_noise` and `one_ring` are free of
//! rings by construction.

mod codes;
mod figures;
mod grid;
mod heights;
mod ponds;
mod trees;

use second_reading::ground::NULL;
use second_reading::random::Random;

use codes::{corner_slope, plain, sparse_noise};
use trees::one_ring;

pub use codes::{noise, pools, slope};
pub use figures::{comb, fan, serpent};
pub use grid::{code_of, Grid};
pub use heights::{basins, drainage, valleys};
pub use ponds::with_ponds;
pub use trees::{forest, tree};

type Kind = (&'static str, fn(usize, usize, &mut Random) -> Grid);

/// Every kind of grid.
const KINDS: [Kind; 14] = [
    ("forest", forest),
    ("drainage", drainage),
    ("valleys", valleys),
    ("basins", basins),
    ("noise", noise),
    ("sparse noise", sparse_noise),
    ("comb", comb),
    ("fan", fan),
    ("serpent", serpent),
    ("slope", slope),
    ("pools", pools),
    ("corner slope", corner_slope),
    ("plain", plain),
    ("one ring", one_ring),
];

/// A grid of a random kind, turned in a random way, at times sprinkled with
/// null cells, at times with ponds laid into it.
pub fn any(rows: usize, cols: usize, random: &mut Random) -> Grid {
    let make = random.pick(&KINDS).1;
    let transposed = random.one_in(2);
    let (r, c) = if transposed { (cols, rows) } else { (rows, cols) };
    let mut grid = make(r, c, random);
    if transposed {
        grid = grid.transposed();
    }
    if random.one_in(2) {
        grid = grid.mirrored();
    }
    if random.one_in(2) {
        grid = grid.transposed().mirrored().transposed();
    }
    if random.one_in(3) {
        let one_in = random.pick(&[3, 10, 50]);
        grid.sprinkle(NULL, one_in, random);
    }
    if random.one_in(3) {
        grid = with_ponds(grid, random);
    }
    grid
}
