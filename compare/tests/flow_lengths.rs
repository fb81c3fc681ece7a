//! The entry for flow lengths: its numbers, in order, and what it leaves.

use second_reading::entries::{self, Terrain};
use second_reading::Refusal;

/// What a lent slice holds before a call.
const UNTOUCHED: u32 = 0xDEAD_BEEF;

/// 0 and 2 flow to 1, which flows off; 3 is null.
const TERRAIN: Terrain =
    Terrain { rows: 1, cols: 4, codes: &[1, 4, 16, 0], accumulation: &[1, 3, 1, 0] };

/// The number, and the four grids after it.
fn called(terrain: Terrain, outlets: &[u32], rooms: [usize; 4]) -> (u32, [Vec<u32>; 4]) {
    let mut grids = rooms.map(|room| vec![UNTOUCHED; room]);
    let lent = grids.each_mut().map(|grid| &mut grid[..]);
    let answer = entries::flow_lengths(terrain, outlets, lent);
    (answer.map_or_else(|Refusal(number)| number, |()| 0), grids)
}

#[test]
fn places_beyond_are_kept() {
    let (number, grids) = called(TERRAIN, &[1], [4, 5, 6, 7]);
    assert_eq!(number, 0);
    for (grid, due) in grids.iter().zip([[1, 0, 1, 0], [0; 4], [0, 1, 0, 0], [0; 4]]) {
        assert_eq!(grid[..4], due);
        assert!(grid[4..].iter().all(|&place| place == UNTOUCHED));
    }
}

#[test]
fn refusals_change_nothing() {
    let refused = |due: u32, terrain: Terrain, outlets: &[u32], rooms: [usize; 4]| {
        let (number, grids) = called(terrain, outlets, rooms);
        assert_eq!(number, due);
        assert!(grids.iter().flatten().all(|&place| place == UNTOUCHED));
    };
    // Each call has what the later ones are refused for, too.
    let codes = &[1, 4, 3, 0];
    let wrong = Terrain { accumulation: &[1, 3, 2, 0], ..TERRAIN };
    let bad = Terrain { codes, ..wrong };
    refused(10, Terrain { rows: 0, ..bad }, &[], [3; 4]);
    refused(10, Terrain { cols: 4097, ..bad }, &[], [3; 4]);
    for short in 0..4 {
        let mut rooms = [4; 4];
        rooms[short] = 3;
        refused(11, bad, &[], rooms);
    }
    refused(11, Terrain { codes: &codes[..3], ..bad }, &[], [4; 4]);
    refused(11, Terrain { accumulation: &wrong.accumulation[..3], ..bad }, &[], [4; 4]);
    refused(12, bad, &[], [4; 4]);
    refused(14, wrong, &[], [4; 4]);
    refused(15, TERRAIN, &[], [4; 4]);
    refused(15, TERRAIN, &[3; 257], [4; 4]);
    refused(16, TERRAIN, &[1, 1, 3], [4; 4]);
    refused(16, TERRAIN, &[1, 1, 4], [4; 4]);
    refused(17, TERRAIN, &[1, 0, 1], [4; 4]);
}
