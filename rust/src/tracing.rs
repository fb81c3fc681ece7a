//! All longest paths to an outlet.

use crate::declared;

/// Checks 25, 10, 11, 12, 14 to 18, 20, 21. Traces all longest paths to the outlet at a place of the
/// list, counted from 0; dropping is a `bool`, or a number that is 0 or not. With it a side valley
/// is left out in which every walk must be shorter than one met before; only visited and dropped
/// differ.
///
/// The edition is that of the standard and says where a path may start: by 1 at any cell, which for a
/// longest path is a headwater; by 2 on the divide only, at a cell that has, among its eight
/// neighbours, one off the grid, null, or outside the outlet's subwatershed, as an upper outlet and
/// its cells are. Such a start need not be a headwater, and only walks from the divide are compared.
///
/// Leaves the subaccumulation in its first rows × cols places and the starts, in order, in theirs.
/// The working space takes three numbers for each of the outlet's cells, which end as 0. Results:
/// straight, diagonal, paths, visited, dropped.
///
/// 20 leaves the subaccumulation. 21 leaves what acceptance does, with a list full of the first
/// starts, and tells 0, 0, the true number of paths, visited and dropped. Every other refusal tells
/// five zeros.
#[inline]
#[must_use]
pub fn trace_by_stack(
    edition: u32,
    rows: usize,
    cols: usize,
    codes: &[u8],
    accumulation: &[u32],
    outlets: &[u32],
    place: usize,
    dropping: impl Into<u32>,
    subaccumulation: &mut [u32],
    starts: &mut [u32],
    work: &mut [u32],
    results: &mut [u32; 5],
) -> u32 {
    // SAFETY: as the root says of every call.
    unsafe {
        declared::jb_trace_by_stack(
            edition,
            rows,
            cols,
            codes.as_ptr(),
            codes.len(),
            accumulation.as_ptr(),
            accumulation.len(),
            outlets.as_ptr(),
            outlets.len(),
            place,
            dropping.into(),
            subaccumulation.as_mut_ptr(),
            subaccumulation.len(),
            starts.as_mut_ptr(),
            starts.len(),
            work.as_mut_ptr(),
            work.len(),
            results,
        )
    }
}

/// The same by recursion, without working space: 19 in place of 20. It takes up to 2 MiB of stack.
#[inline]
#[must_use]
pub fn trace_by_recursion(
    edition: u32,
    rows: usize,
    cols: usize,
    codes: &[u8],
    accumulation: &[u32],
    outlets: &[u32],
    place: usize,
    dropping: impl Into<u32>,
    subaccumulation: &mut [u32],
    starts: &mut [u32],
    results: &mut [u32; 5],
) -> u32 {
    // SAFETY: as the root says of every call.
    unsafe {
        declared::jb_trace_by_recursion(
            edition,
            rows,
            cols,
            codes.as_ptr(),
            codes.len(),
            accumulation.as_ptr(),
            accumulation.len(),
            outlets.as_ptr(),
            outlets.len(),
            place,
            dropping.into(),
            subaccumulation.as_mut_ptr(),
            subaccumulation.len(),
            starts.as_mut_ptr(),
            starts.len(),
            results,
        )
    }
}
