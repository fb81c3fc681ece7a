//! Grids larger than a sheet.

use second_reading::entries::Terrain;
use second_reading::random::Random;

use super::accumulations::nearly_agreeing;
use super::all_outlets::around_all_needs;
use super::case::Case;
use super::damages::damaged;
use crate::calls::{AllRooms, Ask, Comparison, Engine, Rooms};
use crate::grounds::{self, Grid};

/// A few grids larger than a sheet, each with few calls.
pub fn larger_grids(comparison: &mut Comparison, random: &mut Random) {
    let grids = [
        grounds::forest(1, 4096, random),
        grounds::forest(4096, 1, random),
        grounds::serpent(1, 4096, random),
        grounds::noise(1, 4096, random),
        grounds::drainage(4096, 2, random),
        grounds::valleys(65, 64, random),
        grounds::valleys(64, 65, random),
        grounds::with_ponds(grounds::valleys(66, 63, random), random),
        grounds::fan(80, 70, random),
        grounds::comb(100, 90, random).transposed(),
        grounds::serpent(150, 100, random),
        grounds::pools(100, 100, random),
        grounds::slope(120, 120, random),
        grounds::noise(300, 200, random),
        whole_valleys(300, 200, random),
        grounds::valleys(200, 300, random),
        grounds::basins(200, 300, random),
        whole_valleys(1024, 1024, random),
    ];
    for grid in grids {
        comparison.about(format!("larger {} {} x {}", grid.kind, grid.rows, grid.cols));
        let ground = grid.ground();
        let accumulation = nearly_agreeing(ground);
        let mut solid: Vec<u32> = ground.solid().map(|cell| cell as u32).collect();
        let mouth = *solid.iter().max_by_key(|&&cell| accumulation[cell as usize]).expect("solid");
        random.shuffle(&mut solid);
        solid.truncate(255);
        let mut many: Vec<u32> = solid.iter().copied().filter(|&cell| cell != mouth).collect();
        many.push(mouth);
        if grid.cells() > 100_000 {
            once(comparison, &grid, &accumulation, &many, random);
            continue;
        }
        for outlets in [vec![mouth], many] {
            let place = outlets.len() - 1;
            let start = random.pick(&solid);
            let case = Case::new(&grid, &accumulation, &outlets, place, start, random);
            case.every_entry(comparison, random);
            if grid.cells() < 7000 {
                if !ground.has_ring() {
                    around_all_needs(comparison, &case, 3, random);
                }
                damaged(comparison, &case, 3, random);
            }
        }
    }
}

/// Valleys without null cells, so that some are large.
fn whole_valleys(rows: usize, cols: usize, random: &mut Random) -> Grid {
    loop {
        let grid = grounds::valleys(rows, cols, random);
        if grid.ground().solid().count() == grid.cells() {
            return grid;
        }
    }
}

/// Each entry once for the last outlet, tracing with dropping, and once for all outlets by
/// edition 2.
fn once(
    comparison: &mut Comparison,
    grid: &Grid,
    accumulation: &[u32],
    outlets: &[u32],
    random: &mut Random,
) {
    let cells = grid.cells();
    let terrain = Terrain { rows: grid.rows, cols: grid.cols, codes: &grid.codes, accumulation };
    comparison.accumulate(grid.rows, grid.cols, &grid.codes, cells);
    comparison.check_accumulation(terrain);
    comparison.subaccumulate(terrain, outlets, cells);
    comparison.flow_lengths(terrain, outlets, [cells; 4]);
    let place = outlets.len() - 1;
    let ask = Ask { edition: 1, terrain, outlets, place, dropping: 1 };
    let rooms = Rooms { grid: cells, list: 100, work: 3 * cells };
    let traced = comparison.trace(Engine::Stack, ask, rooms);
    comparison.draw(terrain, outlets, place, traced.list[0], cells);
    comparison.trace(Engine::Recursion, Ask { place: random.below(outlets.len()), ..ask }, rooms);
    let rooms = AllRooms { grid: cells, list: 9999, counts: 256, work: 3 * cells };
    let all = comparison.trace_all(2, terrain, outlets, rooms);
    assert_eq!(all.number, 0, "{}", comparison.subject());
    comparison.every_part(outlets.len(), &all);
}
