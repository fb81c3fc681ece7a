//! Tracing by either engine.

use second_reading::editions::Edition;
use second_reading::entries::{self, Terrain};
use second_reading::ground::Ground;

use super::Comparison;
use crate::tally::{Accepted, Entry, Searches};

#[derive(Clone, Copy, Debug, PartialEq, Eq)]
pub enum Engine {
    Stack,
    Recursion,
}

/// Numbers of no edition, some of them right in their low bits.
pub const NO_EDITIONS: [u32; 11] =
    [0, 3, 4, 255, 256, 257, 258, 1 << 16 | 1, 1 << 31 | 2, u32::MAX - 1, u32::MAX];

/// What a tracing call asks.
#[derive(Clone, Copy)]
pub struct Ask<'a> {
    pub edition: u32,
    pub terrain: Terrain<'a>,
    pub outlets: &'a [u32],
    pub place: usize,
    pub dropping: u32,
}

/// The places that a tracing call lends: subaccumulation grid, list of starts
/// and working space, which recursion goes without.
#[derive(Clone, Copy)]
pub struct Rooms {
    pub grid: usize,
    pub list: usize,
    pub work: usize,
}

/// What a tracing call gave, alike on both sides.
pub struct Traced {
    pub number: u32,
    pub results: [u32; 5],
    pub grid: Vec<u32>,
    pub list: Vec<u32>,
}

impl Comparison {
    pub fn trace(&mut self, engine: Engine, ask: Ask, rooms: Rooms) -> Traced {
        let Ask { edition, terrain, outlets, place, dropping } = ask;
        let Terrain { rows, cols, codes, accumulation } = terrain;
        let codes = self.input("codes", codes);
        let accumulation = self.input("accumulation", accumulation);
        let outlets = self.input("outlets", outlets);
        let mut grid = self.output("subaccumulation", rooms.grid);
        let mut starts = self.output("starts", rooms.list);
        let mut work = self.output("work", rooms.work);
        let mut results = self.output("results", 5);
        let (tracing, found) = match engine {
            Engine::Stack => {
                let tracing = entries::trace_by_stack(
                    edition,
                    terrain,
                    outlets.contents,
                    place,
                    dropping != 0,
                    &mut grid.due,
                    &mut starts.due,
                    &mut work.due,
                );
                let found = self.on_small_stack(codes.contents.len(), || {
                    jinxbanyan::trace_by_stack(
                        edition,
                        rows,
                        cols,
                        codes.lent.slice(),
                        accumulation.lent.slice(),
                        outlets.lent.slice(),
                        place,
                        dropping,
                        grid.lent.slice_mut(),
                        starts.lent.slice_mut(),
                        work.lent.slice_mut(),
                        results.lent.array_mut(),
                    )
                });
                (tracing, found)
            }
            Engine::Recursion => {
                let tracing = entries::trace_by_recursion(
                    edition,
                    terrain,
                    outlets.contents,
                    place,
                    dropping != 0,
                    &mut grid.due,
                    &mut starts.due,
                );
                let found = self.on_small_stack(codes.contents.len(), || {
                    jinxbanyan::trace_by_recursion(
                        edition,
                        rows,
                        cols,
                        codes.lent.slice(),
                        accumulation.lent.slice(),
                        outlets.lent.slice(),
                        place,
                        dropping,
                        grid.lent.slice_mut(),
                        starts.lent.slice_mut(),
                        results.lent.array_mut(),
                    )
                });
                (tracing, found)
            }
        };
        results.due = tracing.results().to_vec();
        self.settle(
            match (engine, dropping) {
                (Engine::Stack, 0) => Entry::TraceByStack,
                (Engine::Stack, _) => Entry::TraceByStackDropping,
                (Engine::Recursion, 0) => Entry::TraceByRecursion,
                (Engine::Recursion, _) => Entry::TraceByRecursionDropping,
            },
            format_args!(
                "edition {edition} rows {rows} cols {cols} place {place} dropping {dropping}"
            ),
            &[&codes, &accumulation, &outlets, &grid, &starts, &work, &results],
            tracing.number(),
            found,
        );
        if tracing.number() == 0 {
            let edition = Edition::numbered(edition).expect("accepted by an edition");
            let ground = Ground::new(rows, cols, codes.contents);
            let (outlet, outlets) = (outlets.contents[place] as usize, outlets.contents);
            let starts = &starts.due[..tracing.results()[2] as usize];
            let searches =
                (dropping != 0).then(|| Searches::of(edition, ground, outlet, outlets, starts));
            let subaccumulation = &grid.due;
            let accepted = Accepted { ground, outlet, outlets, starts, subaccumulation, searches };
            self.tally.see_tracing(&accepted);
        }
        Traced {
            number: tracing.number(),
            results: tracing.results(),
            grid: grid.due,
            list: starts.due,
        }
    }
}
