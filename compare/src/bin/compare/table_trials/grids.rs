//! Whole grids from table to table.

use second_reading::random::Random;

use super::spelled::codes_of;
use super::TABLES;
use crate::calls::{Comparison, Conversion};
use crate::grounds::{self, Grid};

/// All nine pairs on a ground of table 1, with bytes lent beyond it and as many places beyond those
/// that are written. By whatever way it comes to a table it is the same there, and back in table 1
/// it accumulates as before.
pub fn every_pair(comparison: &mut Comparison, grid: &Grid, beyond: &[u8]) {
    let &Grid { rows, cols, ref codes, .. } = grid;
    let due = comparison.accumulated(rows, cols, codes, codes.len());
    let grounds = TABLES.map(|to| converted(comparison, (1, to), grid, beyond));
    for (from, ground) in TABLES.into_iter().zip(&grounds) {
        let found = TABLES.map(|to| converted(comparison, (from, to), ground, beyond));
        for (found, due) in found.iter().zip(&grounds) {
            assert_eq!(found.codes, due.codes, "{}", comparison.subject());
        }
        let found = comparison.accumulated(rows, cols, &found[0].codes, codes.len());
        assert_eq!(found, due, "{}", comparison.subject());
    }
}

/// The grid in another table; the call must be accepted.
fn converted(comparison: &mut Comparison, tables: (u32, u32), grid: &Grid, beyond: &[u8]) -> Grid {
    let lent = [&grid.codes, beyond].concat();
    let call = Conversion::new(tables, grid.rows, grid.cols, &lent);
    let (number, mut codes) = comparison.convert(&call);
    assert_eq!(number, 0, "{}", comparison.subject());
    codes.truncate(grid.cells());
    Grid { codes, ..*grid }
}

/// All nine pairs on a ground of table 1 of which one cell, once the ground is in the table to
/// convert from, gets a byte outside that table.
fn one_stray(comparison: &mut Comparison, grid: &Grid, at: usize, random: &mut Random) {
    for from in TABLES {
        let mut ground = converted(comparison, (1, from), grid, &[]);
        ground.codes[at] = stray(from, random);
        for to in TABLES {
            let call = Conversion::new((from, to), grid.rows, grid.cols, &ground.codes);
            assert_eq!(comparison.convert(&call).0, 12, "{}", comparison.subject());
        }
    }
}

/// A byte outside a table, often a code of another.
fn stray(table: u32, random: &mut Random) -> u8 {
    let outside = |byte: &u8| !codes_of(table).contains(byte);
    let bytes: Vec<u8> = if random.one_in(2) {
        TABLES.into_iter().flat_map(codes_of).filter(outside).collect()
    } else {
        (0..=255).filter(outside).collect()
    };
    random.pick(&bytes)
}

/// A ground of table 1 with too few places: one grid a place short, or sides too long for both.
fn too_few_places(comparison: &mut Comparison, grid: &Grid, random: &mut Random) {
    let &Grid { rows, cols, ref codes, .. } = grid;
    let whole = Conversion::new((1, random.pick(&TABLES)), rows, cols, codes);
    let calls = [
        Conversion { codes: codes[1..].to_vec(), ..whole },
        Conversion { room: whole.room - 1, ..whole.clone() },
        Conversion { rows: rows + 1, ..whole.clone() },
        Conversion { cols: cols + 1, ..whole.clone() },
        Conversion { rows: 4096, cols: 4096, ..whole },
    ];
    for call in calls {
        assert_eq!(comparison.convert(&call).0, 11, "{}", comparison.subject());
    }
}

/// Grids of all kinds, from a single cell to some hundred.
pub fn many_grids(comparison: &mut Comparison, random: &mut Random) {
    for turn in 0..2000 {
        let (rows, cols) = match turn % 8 {
            0 => (1, 1),
            1 => (1, random.between(1, 300)),
            2 => (random.between(1, 300), 1),
            _ => (random.between(1, 24), random.between(1, 24)),
        };
        let grid = grounds::any(rows, cols, random);
        comparison.about(format!("tables, {} {rows} x {cols}", grid.kind));
        let beyond: Vec<u8> = (0..random.below(9)).map(|_| random.bits() as u8).collect();
        every_pair(comparison, &grid, &beyond);
        let cell = random.below(grid.cells());
        one_stray(comparison, &grid, cell, random);
        too_few_places(comparison, &grid, random);
    }
}

/// Grids larger than those, up to the largest side; and sides beyond it, with all else right.
pub fn larger_grids(comparison: &mut Comparison, random: &mut Random) {
    let grids = [
        grounds::noise(1, 4096, random),
        grounds::noise(4096, 1, random),
        grounds::valleys(300, 200, random),
    ];
    for grid in grids {
        comparison.about(format!("tables, larger {} {} x {}", grid.kind, grid.rows, grid.cols));
        every_pair(comparison, &grid, &[]);
        one_stray(comparison, &grid, grid.cells() - 1, random);
    }
    for (rows, cols) in [(1, 4097), (4097, 1)] {
        comparison.about(format!("tables, {rows} x {cols}"));
        let grid = grounds::noise(rows, cols, random);
        let call = Conversion::new((1, 2), rows, cols, &grid.codes);
        assert_eq!(comparison.convert(&call).0, 10, "{}", comparison.subject());
    }
}

/// The largest grid, full of all codes, and then with a stray at its last cell.
pub fn largest_grid(comparison: &mut Comparison, random: &mut Random) {
    const SIDE: usize = 4096;
    comparison.about(format!("tables, {SIDE} x {SIDE}"));
    let codes: Vec<u8> = codes_of(1).into_iter().cycle().take(SIDE * SIDE).collect();
    let mut call = Conversion::new((1, 3), SIDE, SIDE, &codes);
    assert_eq!(comparison.convert(&call).0, 0);
    call.codes[SIDE * SIDE - 1] = stray(1, random);
    assert_eq!(comparison.convert(&call).0, 12);
}
