//! Each kind of work on one ground, by the library, plain C and the Rust implementation.

mod all_outlets;
mod drawing;
mod figures;
mod grids;
mod lent;
mod rows;
mod tracing;

use second_reading::entries::Terrain;
use second_reading::random::Random;

use crate::grounds::{Field, SEED};
use crate::measure::Clock;
use all_outlets::{tracing_all, tracing_each, TracedAll};
use drawing::drawing;
use grids::{accumulating, checking, converting, measuring, subaccumulating};
use tracing::{recursion, tracing, Engine, Traced};

pub use all_outlets::Searches;
pub use figures::Figure;
pub use lent::{Sets, LIST, OUTLETS};
pub use rows::{Own, Row, ROWS};
pub use tracing::{Visits, MOST_BY_RECURSION};

/// The tables of codes that are converted from and to.
pub const FROM: u32 = 1;
pub const TO: u32 = 2;

/// The edition of the standard that is traced by.
pub const EDITION: u32 = 1;

/// The Rust implementation walks from every cell, to trace and for flow lengths, where its walks
/// have no more steps than this, all together.
pub const MOST_STEPS: u64 = 4_000_000_000;

/// Above so many steps it does so once, and traces with dropping alone.
pub const MANY_STEPS: u64 = 20_000_000;

/// How often each does its work; the best counts.
#[derive(Clone, Copy)]
pub struct Runs {
    pub quick: usize,
    pub rust: usize,
    /// Whether a call for each outlet is made too, once.
    pub each: bool,
}

impl Runs {
    /// How often the Rust implementation walks from every cell, so many steps in all.
    fn walking(self, steps: u64) -> usize {
        if steps <= MANY_STEPS {
            self.rust
        } else if steps <= MOST_STEPS {
            self.rust.min(1)
        } else {
            0
        }
    }
}

/// What one ground gave: the figures in the order of the rows, what dropping visits, the searches
/// of tracing all outlets, and the seconds of a call for each if these were made.
pub struct Trial {
    pub figures: Vec<Figure>,
    pub visits: Visits,
    pub searches: Searches,
    pub each: Option<f64>,
}

pub fn trial(field: &Field, runs: Runs, sets: &Sets, clock: &mut Clock) -> Trial {
    let cells = field.cells();
    let mut figures = accumulating(field, runs, sets, clock);
    let accumulation = sets.library.borrow().accumulation[..cells].to_vec();
    let terrain = Terrain {
        rows: field.rows,
        cols: field.cols,
        codes: &field.codes,
        accumulation: &accumulation,
    };
    let outlet = largest(&accumulation, u32::MAX);
    let equation = checking(terrain, runs, clock, &mut figures);
    figures.extend(converting(field, runs, sets, clock));
    let outlets = outlets(field, outlet, OUTLETS);
    let many = subaccumulating(terrain, &outlets, runs, sets, clock);
    let many_steps = steps_of(&sets.library.borrow().subaccumulation[..cells]);
    let many_lengths = measuring(terrain, &outlets, many_steps, runs, sets, clock);
    let one = subaccumulating(terrain, &[outlet], runs, sets, clock);
    let steps = steps_of(&accumulation);
    let one_lengths = measuring(terrain, &[outlet], steps, runs, sets, clock);
    let plain_fill = one.plain;
    figures.extend([one, many, one_lengths, many_lengths]);
    let Traced { figures: traced, visits, start } =
        tracing(Engine::Stack, terrain, outlet, plain_fill, steps, runs, sets, clock);
    figures.extend(traced);
    let TracedAll { figure, searches, sums } =
        tracing_all(terrain, &outlets, many_steps, runs, sets, clock);
    figures.push(figure);
    figures.extend(recursion(field, &accumulation, runs, clock));
    figures.extend(drawing(terrain, outlet, start, equation, runs, sets, clock));
    assert_eq!(figures.len(), ROWS.len());
    let each = runs.each.then(|| tracing_each(terrain, &outlets, sums, sets));
    Trial { figures, visits, searches, each }
}

pub fn accepted(number: u32) {
    assert_eq!(number, 0, "an accepted call");
}

/// The steps of all walks together, their starts counted too, each down to the first outlet on it:
/// as many walks pass a cell as its subaccumulation has cells.
pub fn steps_of(subaccumulation: &[u32]) -> u64 {
    subaccumulation.iter().map(|&n| u64::from(n)).sum()
}

/// The first cell with the greatest accumulation up to a limit.
pub fn largest(accumulation: &[u32], limit: u32) -> u32 {
    let cells = (0..accumulation.len() as u32).rev();
    let within = cells.filter(|&cell| accumulation[cell as usize] <= limit);
    within.max_by_key(|&cell| accumulation[cell as usize]).expect("a cell")
}

/// So many outlets, the mouth first, so that every cell is of a subwatershed.
fn outlets(field: &Field, mouth: u32, count: usize) -> Vec<u32> {
    let mut random = Random::new(SEED);
    let mut outlets = vec![mouth];
    while outlets.len() < count {
        let cell = random.below(field.cells());
        if field.codes[cell] != 0 && !outlets.contains(&(cell as u32)) {
            outlets.push(cell as u32);
        }
    }
    outlets
}
