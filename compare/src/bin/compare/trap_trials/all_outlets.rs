//! Calls for all outlets of a list, with the numbers, sums and lists they must give.

use second_reading::entries::Terrain;

use super::trap::Trap;
use crate::calls::{AllRooms, Comparison};

/// All outlets of a trap at once, by an edition: its answers run together. Then with places too many,
/// too few, and enough for the first outlet alone.
pub fn of_trap(comparison: &mut Comparison, trap: &Trap, edition: u32) {
    let outlets = trap.outlets.len();
    let starts: Vec<u32> = trap.answers.iter().flat_map(|answer| answer.starts).copied().collect();
    let counts: Vec<u32> = trap.answers.iter().map(|answer| answer.starts.len() as u32).collect();
    let sums = [
        trap.answers.iter().map(|answer| answer.visited).sum(),
        trap.answers.iter().map(|answer| answer.dropped).sum(),
    ];
    let cells = trap.answers.iter().map(|answer| answer.cells as usize).max().expect("an outlet");
    let needs =
        AllRooms { grid: trap.codes.len(), list: starts.len(), counts: outlets, work: 3 * cells };
    for more in [0, 3] {
        let AllRooms { grid, list, counts: places, work } = needs;
        let rooms = AllRooms {
            grid: grid + more,
            list: list + more,
            counts: places + more,
            work: work + more,
        };
        let all = comparison.trace_all(edition, trap.terrain(), trap.outlets, rooms);
        assert_eq!((all.number, all.sums), (0, sums), "{}", trap.name);
        assert_eq!(all.list[..list], starts, "{}", trap.name);
        assert_eq!(all.counts[..outlets], counts, "{}", trap.name);
        for (&outlet, answer) in trap.outlets.iter().zip(trap.answers) {
            assert_eq!(all.grid[outlet as usize], answer.cells, "{}", trap.name);
        }
        comparison.one_by_one(edition, trap.terrain(), trap.outlets, &all);
        comparison.every_part(outlets, &all);
    }
    let first = counts[0] as usize;
    for list in [0, first, needs.list - 1, needs.list] {
        for (short_counts, short_work) in
            [(0, 0), (1, 0), (outlets, 0), (0, 1), (1, 1), (outlets, needs.work)]
        {
            let rooms = AllRooms {
                list,
                counts: outlets - short_counts,
                work: needs.work - short_work,
                ..needs
            };
            let due = match (short_work, short_counts) {
                (0, 0) if list == needs.list => (0, sums),
                (0, 0) => (21, sums),
                (0, _) => (23, [0, 0]),
                _ => (20, [0, 0]),
            };
            let all = comparison.trace_all(edition, trap.terrain(), trap.outlets, rooms);
            assert_eq!((all.number, all.sums), due, "{}", trap.name);
        }
    }
}

/// M5's ground with a corner null. To 7 flow 4 and 8; to 4 flow 5 and 3, straight, then 0 and 2,
/// diagonally and longest, and between these 1, which is dropped.
const WITH_NULL: Terrain = Terrain {
    rows: 3,
    cols: 3,
    codes: &[2, 4, 8, 1, 4, 16, 0, 4, 16],
    accumulation: &[1, 1, 1, 1, 6, 1, 0, 8, 1],
};

pub fn all_outlets(comparison: &mut Comparison) {
    comparison.about("trap: all outlets in either order".to_string());
    let rooms = AllRooms { grid: 9, list: 3, counts: 2, work: 18 };
    for (outlets, starts, counts) in [([7, 4], [8, 0, 2], [1, 2]), ([4, 7], [0, 2, 8], [2, 1])] {
        let all = comparison.trace_all(1, WITH_NULL, &outlets, rooms);
        // Together the eight cells that are not null.
        assert_eq!((all.number, all.sums), (0, [7, 1]));
        assert_eq!(all.grid, [1, 1, 1, 1, 6, 1, 0, 2, 1]);
        assert_eq!((&all.list[..], &all.counts[..]), (&starts[..], &counts[..]));
        comparison.one_by_one(1, WITH_NULL, &outlets, &all);
        comparison.every_part(2, &all);
    }
    needs_of_some(comparison);
    refusals(comparison);
}

/// The working space for outlets that lie above the greatest cell of the ground, or below another.
fn needs_of_some(comparison: &mut Comparison) {
    comparison.about("trap: the greatest cell is no outlet".to_string());
    let accumulation = &[1, 2, 3, 4, 5, 6];
    let lane = Terrain { rows: 1, cols: 6, codes: &[1; 6], accumulation };
    // Outlets, subaccumulation, the start of each outlet, and the working space.
    for (outlets, grid, starts, work) in [
        (&[0][..], [1, 1, 2, 3, 4, 5], &[0][..], 3),
        (&[3, 1], [1, 2, 1, 2, 1, 2], &[2, 0], 6),
        (&[1, 4], [1, 2, 1, 2, 3, 1], &[0, 2], 9),
        (&[5, 0, 2], [1, 1, 2, 1, 2, 3], &[3, 0, 1], 9),
        (&[5, 4, 3, 2, 1, 0], [1; 6], &[5, 4, 3, 2, 1, 0], 3),
    ] {
        let rooms = AllRooms { grid: 6, list: starts.len(), counts: outlets.len(), work };
        let all = comparison.trace_all(1, lane, outlets, rooms);
        let visited = outlets.iter().map(|&outlet| grid[outlet as usize]).sum();
        assert_eq!((all.number, all.sums), (0, [visited, 0]));
        assert_eq!((&all.grid[..], &all.list[..]), (&grid[..], starts));
        assert_eq!(all.counts, vec![1; outlets.len()]);
        let rooms = AllRooms { work: work - 1, ..rooms };
        let all = comparison.trace_all(1, lane, outlets, rooms);
        assert_eq!((all.number, all.sums), (20, [0, 0]));
        assert_eq!(all.grid, grid);
    }
}

/// Each check with all that would be refused after it.
fn refusals(comparison: &mut Comparison) {
    comparison.about("trap: refusals of all outlets".to_string());
    let mut refused = |number, terrain, outlets: &[u32], grid| {
        let rooms = AllRooms { grid, list: 0, counts: 0, work: 0 };
        let all = comparison.trace_all(1, terrain, outlets, rooms);
        assert_eq!((all.number, all.sums), (number, [0, 0]));
    };
    let codes = &[2, 4, 8, 1, 4, 16, 0, 4, 3];
    let wrong = Terrain { accumulation: &[1, 1, 1, 1, 6, 1, 0, 9, 1], ..WITH_NULL };
    let bad = Terrain { codes, ..wrong };
    refused(10, Terrain { rows: 0, ..bad }, &[], 8);
    refused(10, Terrain { cols: 4097, ..bad }, &[], 8);
    refused(10, Terrain { rows: usize::MAX, cols: usize::MAX, ..bad }, &[], 8);
    refused(11, bad, &[], 8);
    refused(11, Terrain { codes: &codes[..8], ..bad }, &[], 9);
    refused(11, Terrain { accumulation: &[1; 8], ..bad }, &[], 9);
    refused(12, bad, &[], 9);
    refused(14, wrong, &[], 9);
    refused(15, WITH_NULL, &[], 9);
    refused(15, WITH_NULL, &[6; 257], 9);
    refused(16, WITH_NULL, &[7, 7, 6], 9);
    refused(16, WITH_NULL, &[7, 7, 9], 9);
    refused(17, WITH_NULL, &[7, 4, 7], 9);
    refused(20, WITH_NULL, &[7, 4], 9);
    let ring = Terrain { rows: 1, cols: 2, codes: &[1, 16], accumulation: &[2, 1] };
    refused(14, ring, &[0, 1], 2);
}
