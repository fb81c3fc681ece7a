//! Lengths that all but tie.

use super::chains::{chain, lay, turned, Place};
use super::lengths_and_engines;
use crate::calls::Comparison;
use crate::grounds::{code_of, Grid};

/// Two arms above a fork in the north-west corner: `straight` cells along the
/// first row, `diagonal` cells to and fro between the next two rows. Below the
/// fork a trunk leads to the outlet.
fn two_arms(straight: usize, diagonal: usize, trunk: (usize, usize)) -> (Grid, u32) {
    let cols = 1 + straight.max(diagonal);
    let trunk = trunk_below_fork(cols, trunk);
    let last = trunk.iter().map(|&(row, _)| row).max().unwrap_or(0);
    let (mut grid, outlet) = chain(3.max(last + 1), cols, &trunk);
    grid.codes[1..=straight].fill(code_of((0, -1)));
    for at in 1..=diagonal {
        let (row, down) = match at {
            1 => (1, -1),
            _ if at % 2 == 1 => (1, 1),
            _ => (2, -1),
        };
        grid.codes[row * cols + at] = code_of((down, -1));
    }
    // The outlet's walk may not lead into an arm.
    grid.codes[outlet as usize] = code_of(if last == 0 { (0, -1) } else { (1, 0) });
    (grid, outlet)
}

/// The fork and the places below it: first at least so many straight steps,
/// then so many diagonal ones, folded to the width of the grid. Without steps
/// the fork is the outlet.
fn trunk_below_fork(cols: usize, (straight, diagonal): (usize, usize)) -> Vec<Place> {
    let mut walk = vec![(0, 0)];
    if straight + diagonal == 0 {
        return walk;
    }
    walk.extend([(1, 0), (2, 0), (3, 0)]);
    let (mut row, mut col, mut east) = (3, 0, true);
    let is_edge = |col: usize, east: bool| if east { col + 1 == cols } else { col == 0 };
    let aside = |col: usize, east: bool| if east { col + 1 } else { col - 1 };
    for _ in 0..straight {
        if is_edge(col, east) {
            (row, east) = (row + 1, !east);
        } else {
            col = aside(col, east);
        }
        walk.push((row, col));
    }
    // To and fro between two rows, then down to the next two.
    let (mut upper, mut left) = (row + 1, diagonal);
    row = upper;
    walk.push((row, col));
    while left > 0 {
        if is_edge(col, east) {
            walk.extend((row + 1..=upper + 2).map(|row| (row, col)));
            (row, upper, east) = (upper + 2, upper + 2, !east);
        } else {
            row = if row == upper { upper + 1 } else { upper };
            col = aside(col, east);
            walk.push((row, col));
            left -= 1;
        }
    }
    walk
}

/// Two arms above a fork at the western edge, straight steps to the east and diagonal ones to and
/// fro south of them, each with so many straight steps more above: to the east and back in the
/// next row. So the arms are long themselves, and no trunk is needed.
fn long_arms(straight: usize, diagonal: usize, more: usize) -> (Grid, u32) {
    const COLS: usize = 4096;
    const FORK: usize = 2;
    let mut grid = Grid::null("long arms", FORK + 5, COLS);
    let row_at = |at: usize| if at == 0 { FORK } else { FORK + 2 - at % 2 };
    let arms: [(Vec<Place>, usize); 2] = [
        ((0..=straight).map(|at| (FORK, at)).collect(), FORK - 1),
        ((0..=diagonal).map(|at| (row_at(at), at)).collect(), row_at(diagonal) + 1),
    ];
    for (mut arm, back) in arms {
        let (row, col) = arm[arm.len() - 1];
        let east = (col + 1..COLS).map(|col| (row, col));
        arm.extend(east.chain((0..COLS).rev().map(|col| (back, col))).take(more));
        arm.reverse();
        lay(&mut grid, &arm);
    }
    let fork = FORK * COLS;
    grid.codes[fork] = code_of((0, -1));
    (grid, fork as u32)
}

/// Lengths whose difference is as small as it can be for their size: the best
/// fractions for √2 and those beside them, then the same far from the outlet,
/// and far from the starts, where numbers of few digits would take them for
/// equal.
pub fn near_ties(comparison: &mut Comparison) {
    let (mut straight, mut diagonal) = (3, 2);
    while straight < 4000 {
        for (straight, diagonal) in
            [(straight, diagonal), (straight - 1, diagonal), (straight, diagonal - 1)]
        {
            let (grid, outlet) = two_arms(straight, diagonal, (0, 0));
            for turns in if straight < 600 { 0..4 } else { 0..2 } {
                near_tie(comparison, (straight, diagonal), (0, 0), &turned(&grid, outlet, turns));
            }
        }
        (straight, diagonal) = (straight + 2 * diagonal, straight + diagonal);
    }
    for (straight, diagonal) in [(7, 5), (17, 12), (41, 29), (239, 169), (1393, 985)] {
        for trunk in [(1, 0), (0, 1), (2, 3), (117, 40), (40, 1009), (1009, 117)] {
            let forked = two_arms(straight, diagonal, trunk);
            near_tie(comparison, (straight, diagonal), trunk, &forked);
        }
    }
    for trunk in [(1, 500), (700, 300), (1000, 1000), (1201, 33), (1999, 77), (2500, 0)] {
        let forked = two_arms(3363, 2378, trunk);
        near_tie(comparison, (3363, 2378), trunk, &forked);
    }
    // Either arm is the longer one, and either comes first in the order of neighbours.
    for (straight, diagonal) in [(1393, 985), (3363, 2378)] {
        for more in [1000, 3400] {
            comparison.about(format!("near tie of {straight} and {diagonal} below {more} each"));
            let (grid, outlet) = long_arms(straight, diagonal, more);
            let mirrored = (grid.mirrored(), outlet + grid.cols as u32 - 1);
            for forked in [(grid, outlet), mirrored] {
                lengths_and_engines(comparison, &forked, 19);
            }
        }
    }
}

fn near_tie(
    comparison: &mut Comparison,
    (straight, diagonal): (usize, usize),
    trunk: (usize, usize),
    forked: &(Grid, u32),
) {
    let (grid, outlet) = forked;
    comparison.about(format!("near tie of {straight} and {diagonal} above {trunk:?}"));
    let cells = grid.ground().accumulation()[*outlet as usize];
    lengths_and_engines(comparison, forked, if cells > 4096 { 19 } else { 0 });
}
