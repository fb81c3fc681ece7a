//! Tracings by numbers of no edition.

use second_reading::entries::{Terrain, MOST_SIDE};

use crate::calls::{AllRooms, Ask, Comparison, Engine, Rooms, NO_EDITIONS};

/// Each is refused with 25, whatever else is wrong: nothing, or all that is checked later, from the
/// sides on.
pub fn no_editions(comparison: &mut Comparison) {
    let sound = Terrain { rows: 1, cols: 3, codes: &[1, 4, 16], accumulation: &[1, 3, 1] };
    let wrong = Terrain { rows: 1, cols: 3, codes: &[1, 3], accumulation: &[7] };
    let odd_sides = [0, MOST_SIDE + 1, 1 << 32, usize::MAX].map(|rows| Terrain { rows, ..wrong });
    let asked = [(sound, &[1][..], 3, 9), (wrong, &[], 0, 0)];
    let odd = odd_sides.map(|terrain| (terrain, &[9, 9][..], 0, 0));
    for (terrain, outlets, places, work) in asked.into_iter().chain(odd) {
        for edition in NO_EDITIONS {
            comparison.about(format!("trap: edition {edition} on {} rows", terrain.rows));
            for engine in [Engine::Stack, Engine::Recursion] {
                for dropping in [0, 1] {
                    let ask = Ask { edition, terrain, outlets, place: 0, dropping };
                    let rooms = Rooms { grid: places, list: places, work };
                    let traced = comparison.trace(engine, ask, rooms);
                    assert_eq!((traced.number, traced.results), (25, [0; 5]));
                }
            }
            let rooms = AllRooms { grid: places, list: places, counts: places, work };
            let all = comparison.trace_all(edition, terrain, outlets, rooms);
            assert_eq!((all.number, all.sums), (25, [0; 2]));
        }
    }
}
