//! Small grids and single calls with their answers spelled out by hand.

mod all_outlets;
mod divides;
mod editions;
mod limits;
mod pond_calls;
mod ponds;
mod single_calls;
mod table;
mod trap;

use crate::calls::{Ask, Comparison, Engine, Rooms};
use crate::table_trials::every_pair;
use divides::{DIVIDES, OUTSIDE};
use limits::LIMITS;
use ponds::PONDS;
use single_calls::{refusals, sheets, whole_flow_lengths, whole_subaccumulation};
use table::TRAPS;
use trap::Trap;

pub fn run(comparison: &mut Comparison) {
    for trap in TRAPS.iter().chain(&PONDS).chain(&LIMITS).chain(&OUTSIDE) {
        tracings(comparison, trap, 1);
        tracings(comparison, trap, 2);
        other_entries(comparison, trap);
    }
    for divide in &DIVIDES {
        for (edition, trap) in divide.editions() {
            tracings(comparison, &trap, edition);
        }
        other_entries(comparison, &divide.trap);
    }
    whole_subaccumulation(comparison);
    whole_flow_lengths(comparison);
    refusals(comparison);
    sheets(comparison);
    pond_calls::ponds(comparison);
    all_outlets::all_outlets(comparison);
    editions::no_editions(comparison);
}

/// The answers of a trap by an edition, and the paths drawn.
fn tracings(comparison: &mut Comparison, trap: &Trap, edition: u32) {
    comparison.about(format!("trap: {}, by edition {edition}", trap.name));
    tracing(comparison, trap, edition);
    all_outlets::of_trap(comparison, trap, edition);
    drawing(comparison, trap);
}

/// What knows no edition.
fn other_entries(comparison: &mut Comparison, trap: &Trap) {
    comparison.about(format!("trap: {}", trap.name));
    let cells = trap.codes.len();
    assert_eq!(comparison.accumulate(trap.rows, trap.cols, trap.codes, cells), 0);
    assert_eq!(comparison.check_accumulation(trap.terrain()), 0, "{}", trap.name);
    assert_eq!(comparison.subaccumulate(trap.terrain(), trap.outlets, cells), 0);
    flow_lengths(comparison, trap);
    every_pair(comparison, &trap.grid(), &[]);
}

fn tracing(comparison: &mut Comparison, trap: &Trap, edition: u32) {
    let cells = trap.codes.len();
    assert_eq!(trap.answers.len(), trap.outlets.len(), "{}", trap.name);
    for (place, answer) in trap.answers.iter().enumerate() {
        let paths = answer.starts.len();
        for engine in [Engine::Stack, Engine::Recursion] {
            for dropping in [0, 1] {
                let (terrain, outlets) = (trap.terrain(), trap.outlets);
                let ask = Ask { edition, terrain, outlets, place, dropping };
                let (visited, dropped) = if dropping == 0 {
                    (answer.cells, 0)
                } else {
                    (answer.visited, answer.dropped)
                };
                let work = 3 * answer.cells as usize;
                for list in [paths, paths + 1, 0, paths - 1] {
                    let traced = comparison.trace(engine, ask, Rooms { grid: cells, list, work });
                    let (a, b) = answer.length;
                    let due = if list < paths {
                        (21, [0, 0, paths as u32, visited, dropped])
                    } else {
                        (0, [a, b, paths as u32, visited, dropped])
                    };
                    assert_eq!((traced.number, traced.results), due, "{}", trap.name);
                    let held = paths.min(list);
                    assert_eq!(traced.list[..held], answer.starts[..held], "{}", trap.name);
                    assert_eq!(traced.grid[trap.outlets[place] as usize], answer.cells);
                }
            }
        }
    }
}

/// Each longest path drawn, into just enough places and into one too few.
fn drawing(comparison: &mut Comparison, trap: &Trap) {
    for (place, answer) in trap.answers.iter().enumerate() {
        let steps = (answer.length.0 + answer.length.1) as usize;
        for &start in answer.starts {
            let mut draw = |room| comparison.draw(trap.terrain(), trap.outlets, place, start, room);
            let (number, path) = draw(steps + 1);
            assert_eq!(number, 0, "{}", trap.name);
            assert_eq!(path.len(), steps + 1, "{}", trap.name);
            assert_eq!((path[0], path[steps]), (start, trap.outlets[place]), "{}", trap.name);
            assert_eq!(draw(steps), (23, vec![]), "{}", trap.name);
        }
    }
}

/// The longest length stands at the outlet upstream and at each start downstream, and on the path
/// between them the two lengths of every cell add up to it.
fn flow_lengths(comparison: &mut Comparison, trap: &Trap) {
    let cells = trap.codes.len();
    let (number, [down_straight, down_diagonal, up_straight, up_diagonal]) =
        comparison.flow_lengths(trap.terrain(), trap.outlets, [cells; 4]);
    assert_eq!(number, 0, "{}", trap.name);
    let down = |cell: usize| (down_straight[cell], down_diagonal[cell]);
    let up = |cell: usize| (up_straight[cell], up_diagonal[cell]);
    for (place, answer) in trap.answers.iter().enumerate() {
        let outlet = trap.outlets[place];
        assert_eq!((down(outlet as usize), up(outlet as usize)), ((0, 0), answer.length));
        for &start in answer.starts {
            assert_eq!((down(start as usize), up(start as usize)), (answer.length, (0, 0)));
            let (_, path) = comparison.draw(trap.terrain(), trap.outlets, place, start, cells);
            for cell in path.into_iter().map(|cell| cell as usize) {
                let sum = (down(cell).0 + up(cell).0, down(cell).1 + up(cell).1);
                assert_eq!(sum, answer.length, "{}", trap.name);
            }
        }
    }
}
