//! Drawing one path.

use std::cell::Cell;

use second_reading::entries::{self, Terrain};

use super::figures::{apart, time, whole, Figure};
use super::lent::Sets;
use super::{accepted, Runs};
use crate::measure::{Clock, Contestant};
use crate::plain;

pub fn drawing(
    terrain: Terrain,
    outlet: u32,
    start: u32,
    equation: f64,
    runs: Runs,
    sets: &Sets,
    clock: &mut Clock,
) -> Vec<Figure> {
    let Terrain { rows, cols, codes, accumulation } = terrain;
    let outlets = [outlet];
    let library = |place: usize, drawn: &mut [u32; 1]| {
        let path = &mut sets.library.borrow_mut().places;
        jinxbanyan::draw(rows, cols, codes, accumulation, &outlets, place, start, path, drawn)
    };
    let drawn = Cell::new(0);
    let times = clock.race(vec![
        Contestant::new(runs.quick, || {
            let mut cells = [0];
            accepted(library(0, &mut cells));
            drawn.set(cells[0] as usize);
        }),
        // A place beyond the list: refused with 18, after all checks that look at the grid.
        Contestant::new(runs.quick, || assert_eq!(library(1, &mut [0]), 18)),
        Contestant::new(runs.quick, || {
            let lent = &mut sets.plain.borrow_mut();
            plain::draw(terrain, outlet, start, &mut lent.places);
        }),
        Contestant::new(runs.rust, || {
            let lent = &mut sets.rust.borrow_mut();
            let path = entries::draw(terrain, &outlets, 0, start, &mut lent.places);
            assert!(path.is_ok());
        }),
    ]);
    assert!(sets.all_alike(times[3], |lent| &lent.places[..drawn.get()]));
    let walk = time(times[2]);
    let cells = codes.len();
    vec![
        whole(times[0], equation + walk, times[3], cells),
        apart(times[0], times[1], walk, drawn.get()),
    ]
}
