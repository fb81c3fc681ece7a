//! The most outlets that a list can have, by one call.

use second_reading::entries::Terrain;
use second_reading::ground::POND;
use second_reading::random::Random;

use super::chains::full;
use super::terrain;
use crate::calls::{AllRooms, AllTraced, Comparison};
use crate::grounds::{self, Grid};

const MOST: usize = 256;

pub fn all_outlets(comparison: &mut Comparison, random: &mut Random) {
    for edition in [1, 2] {
        ponds_with_ties(comparison, edition);
        along_one_walk(comparison, edition, random);
        on_valleys(comparison, edition, random);
    }
}

/// 256 ponds, each amidst eight inflows of which four are longest: SE, SW, NW, NE. The straight
/// inflows after the first diagonal one, S, W and N, are dropped. All eight are on the divide, so
/// that both editions give the same.
fn ponds_with_ties(comparison: &mut Comparison, edition: u32) {
    comparison.about(format!("256 ponds with four ties each, by edition {edition}"));
    const BLOCK: [u8; 9] = [2, 4, 8, 1, POND, 16, 128, 64, 32];
    const SIDE: usize = 48;
    let mut grid = Grid::null("ponds", SIDE, SIDE);
    for cell in 0..grid.cells() {
        grid.codes[cell] = BLOCK[cell / SIDE % 3 * 3 + cell % SIDE % 3];
    }
    let is_pond = |cell: &u32| grid.codes[*cell as usize] == POND;
    let ponds: Vec<u32> = (0..grid.cells() as u32).filter(is_pond).rev().collect();
    assert_eq!(ponds.len(), MOST);
    let side = SIDE as u32;
    let corners =
        |pond: &u32| [*pond + side + 1, pond + side - 1, pond - side - 1, pond - side + 1];
    let starts: Vec<u32> = ponds.iter().flat_map(corners).collect();
    let accumulation = grid.ground().accumulation();
    let terrain = terrain(&grid, &accumulation);
    let needs = AllRooms { grid: grid.cells(), list: 4 * MOST, counts: MOST, work: 3 * 9 };
    let all = comparison.trace_all(edition, terrain, &ponds, needs);
    // Of each nine cells six are visited and three dropped.
    assert_eq!((all.number, all.sums), (0, [6 * 256, 3 * 256]));
    assert_eq!((&all.list, &all.counts), (&starts, &vec![4; MOST]));
    comparison.one_by_one(edition, terrain, &ponds, &all);
    comparison.every_part(MOST, &all);
    for list in [4 * MOST - 1, 4 * MOST - 4, 4, 0] {
        let all = comparison.trace_all(edition, terrain, &ponds, AllRooms { list, ..needs });
        assert_eq!((all.number, all.sums), (21, [6 * 256, 3 * 256]));
    }
    let mut number =
        |outlets: &[u32], rooms| comparison.trace_all(edition, terrain, outlets, rooms).number;
    assert_eq!(number(&ponds, AllRooms { counts: MOST - 1, ..needs }), 23);
    assert_eq!(number(&ponds, AllRooms { counts: MOST - 1, list: 0, ..needs }), 23);
    assert_eq!(number(&ponds, AllRooms { work: 26, counts: 0, ..needs }), 20);
    assert_eq!(number(&[&ponds[..], &[0]].concat(), AllRooms { counts: 257, ..needs }), 15);
}

fn along_one_walk(comparison: &mut Comparison, edition: u32, random: &mut Random) {
    comparison.about(format!("256 outlets along one walk, by edition {edition}"));
    let (grid, _) = full(64, 64, "full serpent");
    let accumulation = grid.ground().accumulation();
    let terrain = terrain(&grid, &accumulation);
    let (outlets, all) = every_sixteenth(comparison, edition, terrain, random);
    comparison.one_by_one(edition, terrain, &outlets, &all);
    comparison.every_part(MOST, &all);
}

/// Ground of one walk of 4,096 cells, with an outlet at every sixteenth, in any order: each has the
/// sixteen cells up to the next. The farthest, beside that, is on the divide.
pub fn every_sixteenth(
    comparison: &mut Comparison,
    edition: u32,
    terrain: Terrain,
    random: &mut Random,
) -> (Vec<u32>, AllTraced) {
    let above = |cell: u32| terrain.accumulation[cell as usize];
    let cells = terrain.codes.len();
    let mut outlets: Vec<u32> =
        (0..cells as u32).filter(|&cell| above(cell) > 0 && above(cell) % 16 == 0).collect();
    random.shuffle(&mut outlets);
    let needs = AllRooms { grid: cells, list: MOST, counts: MOST, work: 3 * 16 };
    let all = comparison.trace_all(edition, terrain, &outlets, needs);
    assert_eq!((all.number, all.sums), (0, [4096, 0]));
    assert_eq!(all.counts, [1; MOST]);
    for (&outlet, &start) in outlets.iter().zip(&all.list) {
        assert_eq!(above(start) + 15, above(outlet));
    }
    let short = AllRooms { work: needs.work - 1, ..needs };
    assert_eq!(comparison.trace_all(edition, terrain, &outlets, short).number, 20);
    (outlets, all)
}

/// Valleys larger than a sheet, with and without the mouth of the largest among the outlets.
fn on_valleys(comparison: &mut Comparison, edition: u32, random: &mut Random) {
    let grid = grounds::valleys(200, 150, random);
    let accumulation = grid.ground().accumulation();
    let terrain = terrain(&grid, &accumulation);
    let mut solid: Vec<u32> = grid.ground().solid().map(|cell| cell as u32).collect();
    random.shuffle(&mut solid);
    let mouth = *solid.iter().max_by_key(|&&cell| accumulation[cell as usize]).expect("solid");
    solid.retain(|&cell| cell != mouth);
    let without = solid[..MOST].to_vec();
    let with = [&[mouth], &without[1..]].concat();
    for (name, outlets) in [("with", with), ("without", without)] {
        comparison.about(format!(
            "256 outlets on larger valleys, {name} the mouth, by edition {edition}"
        ));
        let cells = grid.cells();
        let rooms = AllRooms { grid: cells, list: cells, counts: MOST, work: 3 * cells };
        let all = comparison.trace_all(edition, terrain, &outlets, rooms);
        comparison.one_by_one(edition, terrain, &outlets, &all);
        comparison.every_part(MOST, &all);
        let list = all.counts.iter().sum::<u32>() as usize;
        let most = outlets.iter().map(|&outlet| all.grid[outlet as usize]).max();
        let work = 3 * most.expect("outlets") as usize;
        let needs = AllRooms { list, work, ..rooms };
        let mut number = |rooms| comparison.trace_all(edition, terrain, &outlets, rooms).number;
        assert_eq!(number(needs), 0);
        assert_eq!(number(AllRooms { list: list - 1, ..needs }), 21);
        assert_eq!(number(AllRooms { list: list - 1, counts: MOST - 1, ..needs }), 23);
        assert_eq!(number(AllRooms { work: work - 1, counts: MOST - 1, ..needs }), 20);
    }
}
