//! Single calls with the numbers they must give.

use second_reading::entries::Terrain;
use second_reading::sheet::sheet;

use crate::calls::{Ask, Comparison, Engine, Rooms};

/// M5's ground with a corner null.
const WITH_NULL: Terrain = Terrain {
    rows: 3,
    cols: 3,
    codes: &[2, 4, 8, 1, 4, 16, 0, 4, 16],
    accumulation: &[1, 1, 1, 1, 6, 1, 0, 8, 1],
};

/// Three outlets on one walk, listed in another order than it meets them: every
/// cell's subaccumulation.
pub fn whole_subaccumulation(comparison: &mut Comparison) {
    comparison.about("trap: outlets along a walk".to_string());
    let accumulation = &[1, 2, 3, 4, 5, 6];
    let terrain = Terrain { rows: 1, cols: 6, codes: &[1; 6], accumulation };
    let outlets = &[2, 0, 5];
    assert_eq!(comparison.subaccumulate(terrain, outlets, 6), 0);
    for (place, start, steps) in [(0, 1, 1), (1, 0, 0), (2, 3, 2)] {
        for engine in [Engine::Stack, Engine::Recursion] {
            let ask = Ask { edition: 1, terrain, outlets, place, dropping: 1 };
            let work = 3 * (steps as usize + 1);
            let traced = comparison.trace(engine, ask, Rooms { grid: 6, list: 1, work });
            assert_eq!((traced.number, traced.results), (0, [steps, 0, 1, steps + 1, 0]));
            assert_eq!((traced.grid, traced.list), (vec![1, 1, 2, 1, 2, 3], vec![start]));
        }
    }
}

/// Two outlets on one walk, with a null cell beside them: every cell's lengths. Then the upper one
/// alone, and calls that lend a grid too few or too many places.
pub fn whole_flow_lengths(comparison: &mut Comparison) {
    comparison.about("trap: all flow lengths".to_string());
    let mut told =
        |outlets: &[u32], rooms: [usize; 4]| comparison.flow_lengths(WITH_NULL, outlets, rooms);
    let (number, grids) = told(&[7, 4], [9; 4]);
    assert_eq!(number, 0);
    assert_eq!(grids[0], [0, 1, 0, 1, 0, 1, 0, 0, 1], "straight, downstream");
    assert_eq!(grids[1], [1, 0, 1, 0, 0, 0, 0, 0, 0], "diagonal, downstream");
    assert_eq!(grids[2], [0, 0, 0, 0, 0, 0, 0, 1, 0], "straight, upstream");
    assert_eq!(grids[3], [0, 0, 0, 0, 1, 0, 0, 0, 0], "diagonal, upstream");
    let (number, grids) = told(&[4], [9; 4]);
    assert_eq!(number, 0);
    assert_eq!(grids[0], [0, 1, 0, 1, 0, 1, 0, 0, 0], "nothing below the outlet");
    assert_eq!(grids[2], [0; 9], "nothing below the outlet");
    for grid in 0..4 {
        for (room, number) in [(0, 11), (8, 11), (10, 0)] {
            let mut rooms = [9; 4];
            rooms[grid] = room;
            assert_eq!(told(&[7, 4], rooms).0, number);
        }
    }
}

/// Grid entries.
pub fn refusals(comparison: &mut Comparison) {
    comparison.about("trap: M6, a ring".to_string());
    assert_eq!(comparison.accumulate(1, 2, &[1, 16], 2), 13);
    assert_eq!(comparison.accumulate(1, 2, &[1, 16], 5), 13);
    comparison.about("trap: a ring of four with a cell flowing in".to_string());
    assert_eq!(comparison.accumulate(2, 3, &[1, 4, 0, 64, 16, 16], 6), 13);
    comparison.about("trap: M7, a null cell".to_string());
    assert_eq!(comparison.accumulate(1, 2, &[1, 0], 2), 0);
    comparison.about("trap: M10".to_string());
    let terrain = Terrain { rows: 1, cols: 3, codes: &[1, 4, 16], accumulation: &[1, 3, 2] };
    assert_eq!(comparison.check_accumulation(terrain), 14);
    assert_eq!(comparison.subaccumulate(terrain, &[1], 3), 14);
    assert_eq!(comparison.flow_lengths(terrain, &[1], [3; 4]).0, 14);
    comparison.about("trap: no accumulation agrees on a ring".to_string());
    for accumulation in [[0, 0], [1, 2], [2, 1], [2, 2], [u32::MAX, 0], [0, u32::MAX]] {
        let terrain = Terrain { rows: 1, cols: 2, codes: &[1, 16], accumulation: &accumulation };
        assert_eq!(comparison.check_accumulation(terrain), 14);
    }

    comparison.about("trap: starts of drawing".to_string());
    let mut draw = |place, start| comparison.draw(WITH_NULL, &[7, 4], place, start, 9);
    assert_eq!(draw(0, 7), (0, vec![7]));
    assert_eq!(draw(0, 8), (0, vec![8, 7]));
    assert_eq!(draw(1, 4), (0, vec![4]));
    assert_eq!(draw(1, 2), (0, vec![2, 4]));
    assert_eq!(draw(0, 4), (22, vec![]), "another outlet");
    assert_eq!(draw(0, 2), (22, vec![]), "above another outlet");
    assert_eq!(draw(1, 7), (22, vec![]), "below the outlet");
    assert_eq!(draw(1, 8), (22, vec![]), "another subwatershed");
    assert_eq!(draw(0, 6), (22, vec![]), "a null cell");
    assert_eq!(draw(0, 9), (22, vec![]), "no cell");
    assert_eq!(draw(0, u32::MAX), (22, vec![]), "no cell");
    assert_eq!(draw(2, 7), (18, vec![]));

    comparison.about("trap: a null outlet after a repeated one".to_string());
    let accumulation = &[1, 2, 3, 4, 0];
    let terrain = Terrain { rows: 1, cols: 5, codes: &[1, 1, 1, 1, 0], accumulation };
    for (outlets, number) in [(&[3, 3, 4][..], 16), (&[3, 3, 5], 16), (&[3, 3], 17)] {
        assert_eq!(comparison.subaccumulate(terrain, outlets, 5), number);
        assert_eq!(comparison.flow_lengths(terrain, outlets, [5; 4]).0, number);
        for engine in [Engine::Stack, Engine::Recursion] {
            let ask = Ask { edition: 1, terrain, outlets, place: 0, dropping: 1 };
            let traced = comparison.trace(engine, ask, Rooms { grid: 5, list: 5, work: 15 });
            assert_eq!((traced.number, traced.results), (number, [0; 5]));
        }
        assert_eq!(comparison.draw(terrain, outlets, 0, 0, 5), (number, vec![]));
    }
}

/// Sheets with the numbers that reading them must give.
pub fn sheets(comparison: &mut Comparison) {
    // Bytes of records: a header has 6, a row 4 and its codes, an outlet 6.
    comparison.about("trap: a column that would be a cell of the next row".to_string());
    let mut file = sheet(2, 4, &[16; 8], &[3]);
    assert_eq!(comparison.read_sheet(&file, 8, 256), 0);
    let column = 6 + 2 * 8 + 4;
    assert_eq!(file[column], 3);
    for (byte, number) in [(5, 7), (4, 7), (0, 0)] {
        file[column] = byte;
        assert_eq!(comparison.read_sheet(&file, 8, 256), number);
    }

    comparison.about("trap: an outlet too many, outside and inside".to_string());
    let mut file = sheet(2, 4, &[16; 8], &[7; 257]);
    assert_eq!(comparison.read_sheet(&file, 8, 256), 8);
    let row = file.len() - 2 - 4;
    assert_eq!(file[row], 1);
    file[row] = 2;
    assert_eq!(comparison.read_sheet(&file, 8, 256), 7);

    comparison.about("trap: a wrong code before a cut row".to_string());
    let mut codes = [16; 8];
    codes[1] = 3;
    let file = sheet(2, 4, &codes, &[3]);
    let second = 6 + 8;
    for length in second..second + 8 {
        assert_eq!(comparison.read_sheet(&file[..length], 8, 256), 5);
    }
    assert_eq!(comparison.read_sheet(&file[..second - 1], 8, 256), 4);
}
