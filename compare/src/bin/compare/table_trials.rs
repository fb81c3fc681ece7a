//! Converting from table to table, with sound and with damaged calls.

mod faults;
mod grids;
mod spelled;

use second_reading::random::Random;

use crate::calls::Comparison;

pub use grids::every_pair;

/// The numbers of the tables.
const TABLES: [u32; 3] = [1, 2, 3];

pub fn run(comparison: &mut Comparison, random: &mut Random) {
    spelled::ten_codes(comparison);
    spelled::every_byte(comparison);
    grids::many_grids(comparison, random);
    grids::larger_grids(comparison, random);
    grids::largest_grid(comparison, random);
    faults::together(comparison);
}

/// All nine pairs of tables, each table with itself too.
fn pairs() -> impl Iterator<Item = (u32, u32)> {
    TABLES.into_iter().flat_map(|from| TABLES.map(|to| (from, to)))
}
