//! The grid entries: their checks in order, and what every lent slice holds
//! at exit.
//!
//! The first check that says "no" gives the refusal's number. Refusals change
//! nothing lent unless the entry says so, and places beyond those an answer
//! needs always keep their contents.

mod all_outlets;
mod tracing;

use crate::editions::Edition;
use crate::flow_lengths::FlowLengths;
use crate::ground::{is_code, Ground};
use crate::subwatershed::Division;
use crate::tables::Table;
use crate::{check, Refusal};

pub use all_outlets::{starts_of, trace_all, TracingAll};
pub use tracing::{trace_by_recursion, trace_by_stack, Kind, Tracing, MOST_BY_RECURSION};

/// Grid entries take sides of 1 to this many cells.
pub const MOST_SIDE: usize = 4096;

/// The most outlets in a list.
pub const MOST_OUTLETS: usize = 256;

/// What a caller lends only to be read: sides, codes and accumulation.
#[derive(Clone, Copy)]
pub struct Terrain<'a> {
    pub rows: usize,
    pub cols: usize,
    pub codes: &'a [u8],
    pub accumulation: &'a [u32],
}

impl<'a> Terrain<'a> {
    /// Checks 10 to 12 and 14, for entries that may lend more grids, of which
    /// `more` tells the places.
    fn checked(self, more: &[usize]) -> Result<Ground<'a>, Refusal> {
        let lent = [self.codes.len(), self.accumulation.len()];
        let lent = lent.iter().chain(more).copied();
        let ground = checked_ground(self.rows, self.cols, self.codes, lent)?;
        // The equation has one solution where there is no ring, and none
        // where there is one.
        let agrees =
            !ground.has_ring() && ground.accumulation() == self.accumulation[..ground.cells()];
        check(14, agrees)?;
        Ok(ground)
    }
}

/// Checks 10 and 11: the number of cells. Sides are judged before they are
/// multiplied; a grid has R × C places if it has at least so many.
fn checked_cells(
    rows: usize,
    cols: usize,
    lent: impl IntoIterator<Item = usize>,
) -> Result<usize, Refusal> {
    let sides = 1..=MOST_SIDE;
    check(10, sides.contains(&rows) && sides.contains(&cols))?;
    let cells = rows * cols;
    check(11, lent.into_iter().all(|places| places >= cells))?;
    Ok(cells)
}

/// Checks 10, 11 and 12; only the first R × C codes count.
fn checked_ground(
    rows: usize,
    cols: usize,
    codes: &[u8],
    lent: impl IntoIterator<Item = usize>,
) -> Result<Ground<'_>, Refusal> {
    let cells = checked_cells(rows, cols, lent)?;
    check(12, codes[..cells].iter().all(|&byte| is_code(byte)))?;
    Ok(Ground::new(rows, cols, codes))
}

/// Checks 15, 16 and 17, each of the whole list before the next.
fn checked_outlets<'a>(ground: Ground<'a>, outlets: &[u32]) -> Result<Division<'a>, Refusal> {
    check(15, (1..=MOST_OUTLETS).contains(&outlets.len()))?;
    let is_solid = |cell: usize| cell < ground.cells() && !ground.is_null(cell);
    check(16, outlets.iter().all(|&outlet| is_solid(outlet as usize)))?;
    let different = (1..outlets.len()).all(|place| !outlets[..place].contains(&outlets[place]));
    check(17, different)?;
    Ok(Division::new(ground, outlets))
}

/// Check 25: the edition that a tracing is by.
fn checked_edition(number: u32) -> Result<Edition, Refusal> {
    Edition::numbered(number).ok_or(Refusal(25))
}

/// Check 18: the outlet at a place of the list, counted from 0.
fn outlet_at(outlets: &[u32], place: usize) -> Result<usize, Refusal> {
    check(18, place < outlets.len())?;
    Ok(outlets[place] as usize)
}

/// Writes an answer into the first places of a lent slice.
fn fill<T: Copy>(lent: &mut [T], answer: &[T]) {
    lent[..answer.len()].copy_from_slice(answer);
}

/// Accumulating (checks 10 to 13).
///
/// Accepted, the first R × C places of the lent grid hold the accumulation.
/// Refused with 13, a ring, they are 0.
pub fn accumulate(
    rows: usize,
    cols: usize,
    codes: &[u8],
    accumulation: &mut [u32],
) -> Result<(), Refusal> {
    let ground = checked_ground(rows, cols, codes, [codes.len(), accumulation.len()])?;
    if ground.has_ring() {
        accumulation[..ground.cells()].fill(0);
        return Err(Refusal(13));
    }
    fill(accumulation, &ground.accumulation());
    Ok(())
}

/// Checking a lent accumulation (10, 11, 12, 14): does it equal its equation
/// at each cell? Nothing lent is changed.
pub fn check_accumulation(terrain: Terrain) -> Result<(), Refusal> {
    terrain.checked(&[]).map(|_| ())
}

/// Subaccumulating under a list of outlets (10 to 12, 14 to 17).
///
/// Accepted, the first R × C places of the lent grid hold the
/// subaccumulation.
pub fn subaccumulate(
    terrain: Terrain,
    outlets: &[u32],
    subaccumulation: &mut [u32],
) -> Result<(), Refusal> {
    let ground = terrain.checked(&[subaccumulation.len()])?;
    let division = checked_outlets(ground, outlets)?;
    fill(subaccumulation, &division.subaccumulation());
    Ok(())
}

/// Flow lengths under a list of outlets (10 to 12, 14 to 17).
///
/// Accepted, the first R × C places of the four lent grids hold straight and
/// diagonal steps downstream, then straight and diagonal steps upstream.
pub fn flow_lengths(
    terrain: Terrain,
    outlets: &[u32],
    grids: [&mut [u32]; 4],
) -> Result<(), Refusal> {
    let ground = terrain.checked(&grids.each_ref().map(|grid| grid.len()))?;
    let lengths = checked_outlets(ground, outlets)?.flow_lengths();
    let counts: [fn(&FlowLengths) -> u32; 4] = [
        |cell| cell.down.straight,
        |cell| cell.down.diagonal,
        |cell| cell.up.straight,
        |cell| cell.up.diagonal,
    ];
    for (grid, count) in grids.into_iter().zip(counts) {
        fill(grid, &lengths.iter().map(count).collect::<Vec<u32>>());
    }
    Ok(())
}

/// Converting codes from one table to another (24, 10 to 12). 24 is judged of
/// both numbers, 12 by the table that the codes come from.
///
/// Accepted, each of the first R × C places of the written grid holds the other
/// table's code for the cell's direction, 0 for null, or 255 for a pond.
pub fn convert(
    from: u32,
    to: u32,
    rows: usize,
    cols: usize,
    codes: &[u8],
    converted: &mut [u8],
) -> Result<(), Refusal> {
    let from = Table::numbered(from).ok_or(Refusal(24))?;
    let to = Table::numbered(to).ok_or(Refusal(24))?;
    let cells = checked_cells(rows, cols, [codes.len(), converted.len()])?;
    let answer: Option<Vec<u8>> =
        codes[..cells].iter().map(|&byte| from.converted(byte, &to)).collect();
    fill(converted, &answer.ok_or(Refusal(12))?);
    Ok(())
}

/// Drawing one path (10 to 12, 14 to 18, 22, 23).
///
/// Accepted, the first of the lent places hold the cell numbers from start to
/// outlet, and just that part is handed back. Refused, nothing is written.
pub fn draw<'a>(
    terrain: Terrain,
    outlets: &[u32],
    place: usize,
    start: u32,
    places: &'a mut [u32],
) -> Result<&'a mut [u32], Refusal> {
    let ground = terrain.checked(&[])?;
    let division = checked_outlets(ground, outlets)?;
    let outlet = outlet_at(outlets, place)?;
    check(22, division.belongs(start as usize, outlet))?;
    let path = division.path(start as usize, outlet);
    check(23, places.len() >= path.len())?;
    fill(places, &path);
    Ok(&mut places[..path.len()])
}
