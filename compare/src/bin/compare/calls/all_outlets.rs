//! Tracing all outlets of a list, and the part of the starts that is one outlet's.

use second_reading::entries::{self, Terrain};
use second_reading::ground::Ground;

use super::Comparison;
use crate::tally::{Entry, Part};

/// The places that a call for all outlets lends: subaccumulation grid, list of starts, counts and
/// working space.
#[derive(Clone, Copy, Debug)]
pub struct AllRooms {
    pub grid: usize,
    pub list: usize,
    pub counts: usize,
    pub work: usize,
}

/// What a call for all outlets gave, alike on both sides.
pub struct AllTraced {
    pub number: u32,
    pub sums: [u32; 2],
    pub grid: Vec<u32>,
    pub list: Vec<u32>,
    pub counts: Vec<u32>,
}

impl Comparison {
    pub fn trace_all(
        &mut self,
        edition: u32,
        terrain: Terrain,
        outlets: &[u32],
        rooms: AllRooms,
    ) -> AllTraced {
        let Terrain { rows, cols, codes, accumulation } = terrain;
        let codes = self.input("codes", codes);
        let accumulation = self.input("accumulation", accumulation);
        let outlets = self.input("outlets", outlets);
        let mut grid = self.output("subaccumulation", rooms.grid);
        let mut starts = self.output("starts", rooms.list);
        let mut counts = self.output("counts", rooms.counts);
        let mut work = self.output("work", rooms.work);
        let mut sums = self.output("sums", 2);
        let tracing = entries::trace_all(
            edition,
            terrain,
            outlets.contents,
            &mut grid.due,
            &mut starts.due,
            &mut counts.due,
            &mut work.due,
        );
        sums.due = tracing.sums().to_vec();
        let found = self.on_small_stack(codes.contents.len(), || {
            jinxbanyan::trace_all(
                edition,
                rows,
                cols,
                codes.lent.slice(),
                accumulation.lent.slice(),
                outlets.lent.slice(),
                grid.lent.slice_mut(),
                starts.lent.slice_mut(),
                counts.lent.slice_mut(),
                work.lent.slice_mut(),
                sums.lent.array_mut(),
            )
        });
        self.settle(
            Entry::TraceAll,
            format_args!("edition {edition} rows {rows} cols {cols}"),
            &[&codes, &accumulation, &outlets, &grid, &starts, &counts, &work, &sums],
            tracing.number(),
            found,
        );
        if [0, 21].contains(&tracing.number()) {
            // The subwatersheds share no cell.
            let solid = Ground::new(rows, cols, codes.contents).solid().count();
            assert!((tracing.visited + tracing.dropped) as usize <= solid, "{}", self.subject);
        }
        AllTraced {
            number: tracing.number(),
            sums: tracing.sums(),
            grid: grid.due,
            list: starts.due,
            counts: counts.due,
        }
    }

    /// The library alone: a call by the same edition with dropping for each outlet gives, put
    /// together, what one call for all gave, which was accepted.
    pub fn one_by_one(&self, edition: u32, terrain: Terrain, outlets: &[u32], all: &AllTraced) {
        let Terrain { rows, cols, codes, accumulation } = terrain;
        let (mut starts, mut counts, mut sums) = (Vec::new(), Vec::new(), [0; 2]);
        let (mut grid, mut list) = (vec![0; rows * cols], vec![0; all.list.len()]);
        let mut work = vec![0; 3 * rows * cols];
        let refused = self.on_small_stack(codes.len(), || {
            for place in 0..outlets.len() {
                let mut results = [0; 5];
                let number = jinxbanyan::trace_by_stack(
                    edition,
                    rows,
                    cols,
                    codes,
                    accumulation,
                    outlets,
                    place,
                    true,
                    &mut grid,
                    &mut list,
                    &mut work,
                    &mut results,
                );
                if number != 0 {
                    return number;
                }
                let [_, _, paths, visited, dropped] = results;
                starts.extend_from_slice(&list[..paths as usize]);
                counts.push(paths);
                sums = [sums[0] + visited, sums[1] + dropped];
            }
            0
        });
        assert_eq!((all.number, refused), (0, 0), "{}", self.subject);
        assert_eq!(all.sums, sums, "{}", self.subject);
        assert_eq!(all.counts[..counts.len()], counts, "{}", self.subject);
        assert_eq!(all.list[..starts.len()], starts, "{}", self.subject);
    }

    /// The part for a choice: where it begins and how many it has.
    pub fn starts_of(&mut self, starts: &[u32], counts: &[u32], choice: usize) -> (usize, usize) {
        let starts = self.input("starts", starts);
        let counts = self.input("counts", counts);
        let mut part = self.output("part", 2);
        let due = entries::starts_of(starts.contents, counts.contents, choice);
        part.due = vec![due.start, due.len()];
        jinxbanyan::starts_of(
            starts.lent.slice(),
            counts.lent.slice(),
            choice,
            part.lent.array_mut(),
        );
        // It answers with no number.
        let arguments = format_args!("choice {choice}");
        self.settle(Entry::StartsOf, arguments, &[&starts, &counts, &part], 0, 0);
        let (starts, counts) = (starts.contents.len(), counts.contents);
        self.tally.see_part(&Part { starts, counts, choice, count: due.len() });
        (due.start, due.len())
    }

    /// The part for every choice of an accepted call for so many outlets, one after the other in the
    /// list; then for choices outside the counts.
    pub fn every_part(&mut self, outlets: usize, all: &AllTraced) {
        let mut from = 0;
        for choice in 0..outlets {
            let count = all.counts[choice] as usize;
            let part = self.starts_of(&all.list, &all.counts, choice);
            assert_eq!(part, (from, count), "{}", self.subject);
            from += count;
        }
        let counts = all.counts.len();
        for choice in [counts, counts + 1, 1 << 32, usize::MAX] {
            let part = self.starts_of(&all.list, &all.counts, choice);
            assert_eq!(part, (0, 0), "{}", self.subject);
        }
    }
}
