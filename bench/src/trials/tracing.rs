//! Tracing by either engine.

use std::cell::Cell;

use second_reading::entries::{self, Terrain};

use super::figures::{apart, time, touching, whole, Figure};
use super::grids::subaccumulating;
use super::lent::{Lent, Sets};
use super::{accepted, largest, steps_of, Runs, EDITION, MANY_STEPS};
use crate::grounds::Field;
use crate::measure::{timed, watching, Clock, Contestant};
use crate::plain::{self, Rule};

/// The most cells of a valley that recursion takes.
pub const MOST_BY_RECURSION: u32 = 4096;

#[derive(Clone, Copy, PartialEq, Eq)]
pub enum Engine {
    Stack,
    Recursion,
}

/// What a search with dropping visits by either rule, and the seconds of plain C, which alone
/// follows the first.
pub struct Visits {
    pub cells: usize,
    pub first: usize,
    pub tight: usize,
    pub first_taken: f64,
    pub tight_taken: f64,
}

/// What a tracing of one outlet gave: four figures, by stack a fifth of edition 2, what was
/// visited, and the first start.
pub struct Traced {
    pub figures: Vec<Figure>,
    pub visits: Visits,
    pub start: u32,
}

/// The plain sets hold the subaccumulation of the outlet.
#[allow(clippy::too_many_arguments)]
pub fn tracing(
    engine: Engine,
    terrain: Terrain,
    outlet: u32,
    plain_fill: f64,
    steps: u64,
    runs: Runs,
    sets: &Sets,
    clock: &mut Clock,
) -> Traced {
    let Terrain { rows, cols, codes, accumulation } = terrain;
    let outlets = [outlet];
    let walking = runs.walking(steps);
    let rust_runs = [if steps <= MANY_STEPS { walking } else { 0 }, walking];
    let library = |edition: u32, dropping: bool, found: &Cell<[u32; 5]>| {
        let Lent { subaccumulation, starts, work, .. } = &mut *sets.library.borrow_mut();
        let work = work.all();
        let page = work.as_mut_ptr();
        let mut results = [0; 5];
        let taken = match engine {
            Engine::Stack => watching(page, || {
                accepted(jinxbanyan::trace_by_stack(
                    edition,
                    rows,
                    cols,
                    codes,
                    accumulation,
                    &outlets,
                    0,
                    dropping,
                    subaccumulation,
                    starts,
                    work,
                    &mut results,
                ));
            }),
            Engine::Recursion => timed(|| {
                accepted(jinxbanyan::trace_by_recursion(
                    edition,
                    rows,
                    cols,
                    codes,
                    accumulation,
                    &outlets,
                    0,
                    dropping,
                    subaccumulation,
                    starts,
                    &mut results,
                ));
            }),
        };
        found.set(results);
        taken
    };
    let plain = |rule: Rule, found: &Cell<[u32; 5]>| {
        let Lent { subaccumulation, starts, work, bytes, .. } = &mut *sets.plain.borrow_mut();
        let work = work.all();
        found.set(plain::search(terrain, subaccumulation, bytes, outlet, rule, starts, work));
    };
    let rust = |dropping: bool, found: &Cell<[u32; 5]>| {
        let Lent { subaccumulation, starts, work, .. } = &mut *sets.rust.borrow_mut();
        let answer = match engine {
            Engine::Stack => entries::trace_by_stack(
                EDITION,
                terrain,
                &outlets,
                0,
                dropping,
                subaccumulation,
                starts,
                work.all(),
            ),
            Engine::Recursion => entries::trace_by_recursion(
                EDITION,
                terrain,
                &outlets,
                0,
                dropping,
                subaccumulation,
                starts,
            ),
        };
        accepted(answer.number());
        found.set(answer.results());
    };
    let found: [Cell<[u32; 5]>; 8] = Default::default();
    let refused_runs = if engine == Engine::Recursion { runs.quick } else { 0 };
    let second_runs = if engine == Engine::Stack { runs.quick } else { 0 };
    let times = clock.race(vec![
        Contestant::timing_itself(runs.quick, || library(EDITION, false, &found[0])),
        Contestant::timing_itself(runs.quick, || library(EDITION, true, &found[1])),
        // No working space: refused with 20, after all checks and with the grid filled.
        Contestant::new(refused_runs, || {
            let Lent { subaccumulation, starts, .. } = &mut *sets.library.borrow_mut();
            let number = jinxbanyan::trace_by_stack(
                EDITION,
                rows,
                cols,
                codes,
                accumulation,
                &outlets,
                0,
                false,
                subaccumulation,
                starts,
                &mut [],
                &mut [0; 5],
            );
            assert_eq!(number, 20);
        }),
        Contestant::new(runs.quick, || plain(Rule::None, &found[2])),
        Contestant::new(runs.quick, || plain(Rule::Tight, &found[3])),
        Contestant::new(rust_runs[0], || rust(false, &found[4])),
        Contestant::new(rust_runs[1], || rust(true, &found[5])),
        Contestant::new(runs.quick, || plain(Rule::First, &found[6])),
        Contestant::timing_itself(second_runs, || library(2, false, &found[7])),
    ]);
    // What edition 1 lists is compared and drawn.
    library(EDITION, true, &found[1]);
    let [dropping, first] = [1, 6].map(|who| found[who].get());
    assert_eq!(dropping[..3], first[..3], "the same paths by either rule");
    assert!(dropping[3] <= first[3], "no more cells visited");
    let paths = found[0].get()[2] as usize;
    let cells = codes.len();
    for (who, dropping, set) in
        [(2, 0, &sets.plain), (3, 1, &sets.plain), (4, 0, &sets.rust), (5, 1, &sets.rust)]
    {
        if times[who + 1].is_some() {
            assert_eq!(found[who], found[dropping], "the same answers");
            let (library, other) = (sets.library.borrow(), set.borrow());
            assert_eq!(library.starts[..paths], other.starts[..paths], "the same starts");
        }
    }
    let need = 3 * found[0].get()[3] as usize;
    if engine == Engine::Stack {
        for set in [&sets.library, &sets.plain] {
            let left = &mut set.borrow_mut().work;
            assert!(left.all()[..need].iter().all(|&number| number == 0), "left 0");
        }
    }
    let mut figures = Vec::new();
    for dropping in [0, 1] {
        let search = time(times[3 + dropping]);
        let visited = found[dropping].get()[3] as usize;
        figures.push(whole(times[dropping], plain_fill + search, times[5 + dropping], cells));
        figures.push(match engine {
            Engine::Stack => touching(times[dropping], search, visited),
            Engine::Recursion => apart(times[dropping], times[2], search, visited),
        });
    }
    if engine == Engine::Stack {
        assert_eq!(found[0].get()[3], found[7].get()[3], "the same cells visited");
        figures.push(whole(times[8], plain_fill + time(times[3]), None, cells));
    }
    let visits = Visits {
        cells: found[0].get()[3] as usize,
        first: first[3] as usize,
        tight: dropping[3] as usize,
        first_taken: time(times[7]),
        tight_taken: time(times[4]),
    };
    Traced { figures, visits, start: sets.library.borrow().starts[0] }
}

/// On the largest valley that recursion takes, cut out of the ground so that its checks do not
/// hide it.
pub fn recursion(
    field: &Field,
    accumulation: &[u32],
    runs: Runs,
    clock: &mut Clock,
) -> Vec<Figure> {
    let (valley, outlet) = field.cut(largest(accumulation, MOST_BY_RECURSION));
    let accumulation = valley.ground().accumulation();
    let terrain = Terrain {
        rows: valley.rows,
        cols: valley.cols,
        codes: &valley.codes,
        accumulation: &accumulation,
    };
    let rust = if runs.rust > 0 { runs.rust.max(7) } else { 0 };
    let runs = Runs { quick: runs.quick.max(7), rust, ..runs };
    let sets = Sets::new(valley.cells());
    let plain_fill = subaccumulating(terrain, &[outlet], runs, &sets, clock).plain;
    let steps = steps_of(&accumulation);
    tracing(Engine::Recursion, terrain, outlet, plain_fill, steps, runs, &sets, clock).figures
}
