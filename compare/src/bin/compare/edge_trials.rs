//! 4,096 and 4,097 cells by recursion, on a stack of 2 MiB; lengths that all
//! but tie; numbers wider than 16 bits; 256 outlets by one call; the largest
//! grid.

mod all_outlets;
mod chains;
mod near_ties;

use second_reading::entries::Terrain;
use second_reading::random::Random;

use crate::calls::{AllRooms, Ask, Comparison, Engine, Rooms};
use crate::grounds::{code_of, Grid};
use all_outlets::every_sixteenth;
use chains::{diagonal_serpent, full, straight_chain, turned, zigzag};

pub use all_outlets::all_outlets;
pub use near_ties::near_ties;

/// Recursion at 4,096 cells (accepted) and at 4,097 (19), entering by each of
/// the eight neighbours.
pub fn recursion(comparison: &mut Comparison) {
    for (cells, due) in [(4096, 0), (4097, 19)] {
        for way in [0, 2, 4, 6] {
            comparison.about(format!("{cells} cells, entering by neighbour {way}"));
            lengths_and_engines(comparison, &straight_chain(way, cells), due);
        }
        let bent = [("diagonal serpent", diagonal_serpent(cells)), ("zigzag", zigzag(cells))];
        for (name, (grid, outlet)) in bent {
            for turns in 0..4 {
                comparison.about(format!("{cells} cells, {name} turned {turns}"));
                lengths_and_engines(comparison, &turned(&grid, outlet, turns), due);
            }
        }
        let (rows, cols) = if cells == 4096 { (64, 64) } else { (17, 241) };
        for kind in ["full comb", "full fan", "full serpent"] {
            let (grid, outlet) = full(rows, cols, kind);
            for turns in 0..4 {
                comparison.about(format!("{cells} cells, {kind} turned {turns}"));
                lengths_and_engines(comparison, &turned(&grid, outlet, turns), due);
            }
        }
    }
}

/// Straight diagonals of 4,096 cells need the largest grid there is. There all
/// other entries run too.
pub fn largest_grid(comparison: &mut Comparison, random: &mut Random) {
    let rooms = Rooms { grid: 4096 * 4096, list: 1, work: 3 * 4096 };
    for way in [1, 3, 5, 7] {
        comparison.about(format!("4096 cells, entering by neighbour {way}"));
        let (grid, outlet) = straight_chain(way, 4096);
        let accumulation = grid.ground().accumulation();
        let terrain = terrain(&grid, &accumulation);
        for (edition, dropping) in [(1, 0), (2, 1)] {
            let ask = Ask { edition, terrain, outlets: &[outlet], place: 0, dropping };
            let traced = comparison.trace(Engine::Recursion, ask, rooms);
            assert_eq!(traced.number, 0, "{}", comparison.subject());
        }
        if way == 7 {
            comparison.accumulate(grid.rows, grid.cols, &grid.codes, grid.cells());
            comparison.check_accumulation(terrain);
            comparison.subaccumulate(terrain, &[outlet], grid.cells());
            comparison.flow_lengths(terrain, &[outlet], [grid.cells(); 4]);
            let ask = Ask { edition: 1, terrain, outlets: &[outlet], place: 0, dropping: 1 };
            let traced = comparison.trace(Engine::Stack, ask, rooms);
            comparison.draw(terrain, &[outlet], 0, traced.list[0], 4096);
            every_sixteenth(comparison, 2, terrain, random);
        }
    }
    comparison.about("4097 cells, entering by neighbour 7".to_string());
    let (grid, outlet) = straight_chain(7, 4097);
    let accumulation = grid.ground().accumulation();
    let terrain = terrain(&grid, &accumulation);
    let ask = Ask { edition: 2, terrain, outlets: &[outlet], place: 0, dropping: 1 };
    let traced = comparison.trace(Engine::Recursion, ask, rooms);
    assert_eq!(traced.number, 19, "{}", comparison.subject());
}

/// A short arm met first, then one of 65,536 cells, whose number has no low
/// bits and whose square needs more than 32: it must not be dropped.
pub fn large_arm(comparison: &mut Comparison) {
    const SIDE: usize = 256;
    let mut grid = Grid::null("large arm", SIDE, SIDE + 3);
    for row in 0..SIDE {
        let from = row * grid.cols;
        grid.codes[from..from + SIDE].fill(code_of((0, 1)));
        grid.codes[from + SIDE - 1] = code_of(if row == 0 { (0, 1) } else { (-1, 0) });
    }
    grid.codes[SIDE] = code_of((-1, 0));
    grid.codes[SIDE + 1..SIDE + 3].fill(code_of((0, -1)));
    for turns in 0..2 {
        comparison.about(format!("a large arm turned {turns}"));
        lengths_and_engines(comparison, &turned(&grid, SIDE as u32, turns), 19);
    }
}

/// Flow lengths and both engines on one subwatershed, these with and without
/// dropping; the stack's working space and list are just large enough. Every
/// headwater is on the divide, so that both editions give the same: each engine
/// goes by one without dropping and by the other with it, and the call for all
/// outlets, which is one, gives what the stack gave with dropping.
fn lengths_and_engines(comparison: &mut Comparison, (grid, outlet): &(Grid, u32), due: u32) {
    let accumulation = grid.ground().accumulation();
    let cells = accumulation[*outlet as usize];
    let terrain = terrain(grid, &accumulation);
    comparison.flow_lengths(terrain, &[*outlet], [grid.cells(); 4]);
    for (dropping, edition, other) in [(0, 1, 2), (1, 2, 1)] {
        let ask = Ask { edition, terrain, outlets: &[*outlet], place: 0, dropping };
        let rooms = Rooms { grid: grid.cells(), list: 256, work: 3 * cells as usize };
        let recurred = comparison.trace(Engine::Recursion, ask, rooms);
        assert_eq!(recurred.number, due, "{}", comparison.subject());
        let list = if due == 0 { recurred.results[2] as usize } else { rooms.list };
        let ask = Ask { edition: other, ..ask };
        let traced = comparison.trace(Engine::Stack, ask, Rooms { list, ..rooms });
        if due == 0 {
            assert_eq!(traced.results, recurred.results, "{}", comparison.subject());
        }
        if dropping == 1 {
            let [_, _, paths, visited, dropped] = traced.results;
            let (grid, list) = (rooms.grid, paths as usize);
            let rooms = AllRooms { grid, list, counts: 1, work: rooms.work };
            let all = comparison.trace_all(edition, terrain, &[*outlet], rooms);
            assert_eq!((all.number, all.sums), (0, [visited, dropped]), "{}", comparison.subject());
            assert_eq!((&all.list[..], all.counts), (&traced.list[..list], vec![paths]));
        }
    }
}

fn terrain<'a>(grid: &'a Grid, accumulation: &'a [u32]) -> Terrain<'a> {
    Terrain { rows: grid.rows, cols: grid.cols, codes: &grid.codes, accumulation }
}
