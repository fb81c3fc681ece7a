//! Tracing all outlets of a list, by one call and by a call for each.

use std::cell::Cell;

use second_reading::entries::{self, Terrain};

use super::figures::{apart, time, whole, Figure};
use super::lent::{Lent, Sets, LIST};
use super::{accepted, Runs, EDITION};
use crate::measure::{timed, Clock, Contestant};
use crate::plain;

/// What one call for all outlets gave: its figure, its searches, and the cells visited and those
/// dropped.
pub struct TracedAll {
    pub figure: Figure,
    pub searches: Searches,
    pub sums: [u32; 2],
}

/// Each outlet is searched to count its starts, and once more to list them: the cells that one
/// search of each visits, the seconds of the call, and of one refused between the two.
pub struct Searches {
    pub visited: usize,
    pub accepted: f64,
    pub refused: f64,
    /// What the accepted call takes more.
    pub second: Figure,
}

/// The Rust implementation walks from every cell, so many steps in all.
pub fn tracing_all(
    terrain: Terrain,
    outlets: &[u32],
    steps: u64,
    runs: Runs,
    sets: &Sets,
    clock: &mut Clock,
) -> TracedAll {
    let Terrain { rows, cols, codes, accumulation } = terrain;
    let library = |places: usize, sums: &Cell<[u32; 2]>| {
        let Lent { subaccumulation, starts, counts, work, .. } = &mut *sets.library.borrow_mut();
        let mut told = [0; 2];
        let number = jinxbanyan::trace_all(
            EDITION,
            rows,
            cols,
            codes,
            accumulation,
            outlets,
            subaccumulation,
            &mut starts[..places],
            counts,
            work.all(),
            &mut told,
        );
        sums.set(told);
        number
    };
    let counted = || {
        let counts = &sets.library.borrow().counts;
        counts[..outlets.len()].iter().map(|&count| count as usize).sum::<usize>()
    };
    let sums: [Cell<[u32; 2]>; 4] = Default::default();
    let times = clock.race(vec![
        Contestant::new(runs.quick, || accepted(library(LIST, &sums[0]))),
        // No place for the last start, of those that the call above has counted: refused with 21,
        // after a search of each outlet.
        Contestant::new(runs.quick, || assert_eq!(library(counted() - 1, &sums[1]), 21)),
        Contestant::new(runs.quick, || {
            let Lent { subaccumulation, starts, counts, work, bytes, .. } =
                &mut *sets.plain.borrow_mut();
            let (grid, work) = (subaccumulation, work.all());
            sums[2].set(plain::trace_all(terrain, outlets, grid, bytes, starts, counts, work));
        }),
        Contestant::new(runs.walking(steps), || {
            let Lent { subaccumulation, starts, counts, work, .. } = &mut *sets.rust.borrow_mut();
            let (grid, work) = (subaccumulation, work.all());
            let answer = entries::trace_all(EDITION, terrain, outlets, grid, starts, counts, work);
            accepted(answer.number());
            sums[3].set(answer.sums());
        }),
    ]);
    for (sum, _) in sums.iter().zip(&times).filter(|(_, best)| best.is_some()) {
        assert_eq!(*sum, sums[0], "the same sums");
    }
    let cells = codes.len();
    assert!(sets.all_alike(times[3], |lent| &lent.subaccumulation[..cells]));
    assert!(sets.all_alike(times[3], |lent| &lent.counts[..outlets.len()]));
    assert!(sets.all_alike(times[3], |lent| &lent.starts[..counted()]));
    for set in [&sets.library, &sets.plain] {
        let lent = &*set.borrow();
        let cells = outlets.iter().map(|&outlet| lent.subaccumulation[outlet as usize] as usize);
        let need = 3 * cells.max().expect("an outlet");
        assert!(lent.work.read()[..need].iter().all(|&number| number == 0), "left 0");
    }
    let sums = sums[0].get();
    let visited = sums[0] as usize;
    TracedAll {
        figure: whole(times[0], time(times[2]), times[3], cells),
        searches: Searches {
            visited,
            accepted: time(times[0]),
            refused: time(times[1]),
            // Plain C searches once: it has no time for this.
            second: apart(times[0], times[1], 0.0, visited),
        },
        sums,
    }
}

/// The seconds of a call for each outlet, made once. All together must answer as the one call for
/// all did, whose starts and counts the library's set holds.
pub fn tracing_each(terrain: Terrain, outlets: &[u32], sums: [u32; 2], sets: &Sets) -> f64 {
    let Terrain { rows, cols, codes, accumulation } = terrain;
    let Lent { subaccumulation, starts, counts, work, .. } = &mut *sets.library.borrow_mut();
    let mut list = vec![1; LIST];
    let (mut seconds, mut first, mut added) = (0.0, 0, [0; 2]);
    for (place, &count) in counts[..outlets.len()].iter().enumerate() {
        let mut results = [0; 5];
        let taken = timed(|| {
            accepted(jinxbanyan::trace_by_stack(
                EDITION,
                rows,
                cols,
                codes,
                accumulation,
                outlets,
                place,
                true,
                subaccumulation,
                &mut list,
                work.all(),
                &mut results,
            ));
        });
        seconds += taken.cpu;
        let [_, _, paths, visited, dropped] = results;
        assert_eq!(paths, count, "the same count");
        let paths = paths as usize;
        assert_eq!(list[..paths], starts[first..first + paths], "the same starts");
        first += paths;
        added = [added[0] + visited, added[1] + dropped];
    }
    assert_eq!(added, sums, "the same sums");
    seconds
}
