//! Accumulation, its check, conversion, subaccumulation, and flow lengths.

use second_reading::entries::{self, Terrain};

use super::figures::{time, whole, Figure};
use super::lent::{Lent, Sets};
use super::{accepted, Runs, FROM, TO};
use crate::grounds::Field;
use crate::measure::{Clock, Contestant};
use crate::plain;

pub fn accumulating(field: &Field, runs: Runs, sets: &Sets, clock: &mut Clock) -> Vec<Figure> {
    let Field { rows, cols, ref codes } = *field;
    let times = clock.race(vec![
        Contestant::new(runs.quick, || {
            let lent = &mut sets.library.borrow_mut();
            accepted(jinxbanyan::accumulate(rows, cols, codes, &mut lent.accumulation));
        }),
        Contestant::new(runs.quick, || {
            let lent = &mut sets.plain.borrow_mut();
            accepted(plain::inflow_count(rows, cols, codes, &mut lent.accumulation));
        }),
        Contestant::new(runs.quick, || {
            let lent = &mut sets.plain.borrow_mut();
            accepted(plain::look_around(rows, cols, codes, &mut lent.accumulation));
        }),
        Contestant::new(runs.rust, || {
            let lent = &mut sets.rust.borrow_mut();
            let answer = entries::accumulate(rows, cols, codes, &mut lent.accumulation);
            assert!(answer.is_ok());
        }),
    ]);
    let cells = field.cells();
    assert!(sets.all_alike(times[3], |lent| &lent.accumulation[..cells]));
    vec![
        whole(times[0], time(times[1]), times[3], cells),
        whole(times[0], time(times[2]), None, cells),
    ]
}

/// Gives the time of the plain equation too.
pub fn checking(terrain: Terrain, runs: Runs, clock: &mut Clock, figures: &mut Vec<Figure>) -> f64 {
    let Terrain { rows, cols, codes, accumulation } = terrain;
    let times = clock.race(vec![
        Contestant::new(runs.quick, || {
            accepted(jinxbanyan::check_accumulation(rows, cols, codes, accumulation));
        }),
        Contestant::new(runs.quick, || accepted(plain::equation(terrain))),
        Contestant::new(runs.rust, || assert!(entries::check_accumulation(terrain).is_ok())),
    ]);
    figures.push(whole(times[0], time(times[1]), times[2], terrain.codes.len()));
    time(times[1])
}

pub fn converting(field: &Field, runs: Runs, sets: &Sets, clock: &mut Clock) -> [Figure; 2] {
    let Field { rows, cols, ref codes } = *field;
    let cells = field.cells();
    // A grid of its own, so that both answers of plain C are compared.
    let mut judged = vec![1; cells];
    let times = clock.race(vec![
        Contestant::new(runs.quick, || {
            let lent = &mut sets.library.borrow_mut();
            accepted(jinxbanyan::convert(FROM, TO, rows, cols, codes, &mut lent.bytes));
        }),
        Contestant::new(runs.quick, || {
            let lent = &mut sets.plain.borrow_mut();
            plain::convert(FROM, TO, rows, cols, codes, &mut lent.bytes);
        }),
        Contestant::new(runs.quick, || {
            accepted(plain::convert_judged(FROM, TO, rows, cols, codes, &mut judged));
        }),
        Contestant::new(runs.rust, || {
            let lent = &mut sets.rust.borrow_mut();
            let answer = entries::convert(FROM, TO, rows, cols, codes, &mut lent.bytes);
            assert!(answer.is_ok());
        }),
    ]);
    assert!(sets.all_alike(times[3], |lent| &lent.bytes[..cells]));
    assert!(sets.library.borrow().bytes[..cells] == judged);
    [whole(times[0], time(times[1]), times[3], cells), whole(times[0], time(times[2]), None, cells)]
}

pub fn subaccumulating(
    terrain: Terrain,
    outlets: &[u32],
    runs: Runs,
    sets: &Sets,
    clock: &mut Clock,
) -> Figure {
    let Terrain { rows, cols, codes, accumulation } = terrain;
    let times = clock.race(vec![
        Contestant::new(runs.quick, || {
            let grid = &mut sets.library.borrow_mut().subaccumulation;
            accepted(jinxbanyan::subaccumulate(rows, cols, codes, accumulation, outlets, grid));
        }),
        Contestant::new(runs.quick, || {
            let Lent { subaccumulation, bytes, .. } = &mut *sets.plain.borrow_mut();
            accepted(plain::subaccumulate(terrain, outlets, subaccumulation, bytes));
        }),
        Contestant::new(runs.rust, || {
            let lent = &mut sets.rust.borrow_mut();
            let answer = entries::subaccumulate(terrain, outlets, &mut lent.subaccumulation);
            assert!(answer.is_ok());
        }),
    ]);
    let cells = terrain.codes.len();
    assert!(sets.all_alike(times[2], |lent| &lent.subaccumulation[..cells]));
    whole(times[0], time(times[1]), times[2], cells)
}

/// The Rust implementation walks from every cell, so many steps in all.
pub fn measuring(
    terrain: Terrain,
    outlets: &[u32],
    steps: u64,
    runs: Runs,
    sets: &Sets,
    clock: &mut Clock,
) -> Figure {
    let Terrain { rows, cols, codes, accumulation } = terrain;
    let cells = codes.len();
    let times = clock.race(vec![
        Contestant::new(runs.quick, || {
            let mut lent = sets.library.borrow_mut();
            let [down_straight, down_diagonal, up_straight, up_diagonal] = lent.four_grids(cells);
            accepted(jinxbanyan::flow_lengths(
                rows,
                cols,
                codes,
                accumulation,
                outlets,
                down_straight,
                down_diagonal,
                up_straight,
                up_diagonal,
            ));
        }),
        Contestant::new(runs.quick, || {
            let mut lent = sets.plain.borrow_mut();
            accepted(plain::flow_lengths(terrain, outlets, lent.four_grids(cells)));
        }),
        Contestant::new(runs.walking(steps), || {
            let mut lent = sets.rust.borrow_mut();
            let answer = entries::flow_lengths(terrain, outlets, lent.four_grids(cells));
            assert!(answer.is_ok());
        }),
    ]);
    assert!(sets.all_alike(times[2], |lent| &lent.work.read()[..3 * cells]));
    assert!(sets.all_alike(times[2], |lent| &lent.places[..cells]));
    whole(times[0], time(times[1]), times[2], cells)
}
