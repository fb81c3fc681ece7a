//! Accumulation, its check, subaccumulation, flow lengths, and codes of other tables.

use crate::declared;

/// Checks 10, 11, 12, 13. Leaves the accumulation in the first rows × cols places; 13 leaves zeros
/// there.
#[inline]
#[must_use]
pub fn accumulate(rows: usize, cols: usize, codes: &[u8], accumulation: &mut [u32]) -> u32 {
    // SAFETY: as the root says of every call.
    unsafe {
        declared::jb_accumulate(
            rows,
            cols,
            codes.as_ptr(),
            codes.len(),
            accumulation.as_mut_ptr(),
            accumulation.len(),
        )
    }
}

/// Checks 10, 11, 12, 14. Writes nothing.
#[inline]
#[must_use]
pub fn check_accumulation(rows: usize, cols: usize, codes: &[u8], accumulation: &[u32]) -> u32 {
    // SAFETY: as the root says of every call.
    unsafe {
        declared::jb_check_accumulation(
            rows,
            cols,
            codes.as_ptr(),
            codes.len(),
            accumulation.as_ptr(),
            accumulation.len(),
        )
    }
}

/// Checks 10, 11, 12, 14 to 17. Leaves the subaccumulation under a list of outlets in the first
/// rows × cols places. An outlet is its cell number.
#[inline]
#[must_use]
pub fn subaccumulate(
    rows: usize,
    cols: usize,
    codes: &[u8],
    accumulation: &[u32],
    outlets: &[u32],
    subaccumulation: &mut [u32],
) -> u32 {
    // SAFETY: as the root says of every call.
    unsafe {
        declared::jb_subaccumulate(
            rows,
            cols,
            codes.as_ptr(),
            codes.len(),
            accumulation.as_ptr(),
            accumulation.len(),
            outlets.as_ptr(),
            outlets.len(),
            subaccumulation.as_mut_ptr(),
            subaccumulation.len(),
        )
    }
}

/// Checks 10, 11, 12, 14 to 17. Leaves two lengths of each cell in the first rows × cols places of
/// four grids, as straight and diagonal steps: down its walk to its outlet, the first on it, and up
/// to the farthest cell of the same subwatershed above it. A cell of no subwatershed has 0 in all
/// four.
#[inline]
#[must_use]
pub fn flow_lengths(
    rows: usize,
    cols: usize,
    codes: &[u8],
    accumulation: &[u32],
    outlets: &[u32],
    down_straight: &mut [u32],
    down_diagonal: &mut [u32],
    up_straight: &mut [u32],
    up_diagonal: &mut [u32],
) -> u32 {
    // SAFETY: as the root says of every call.
    unsafe {
        declared::jb_flow_lengths(
            rows,
            cols,
            codes.as_ptr(),
            codes.len(),
            accumulation.as_ptr(),
            accumulation.len(),
            outlets.as_ptr(),
            outlets.len(),
            down_straight.as_mut_ptr(),
            down_straight.len(),
            down_diagonal.as_mut_ptr(),
            down_diagonal.len(),
            up_straight.as_mut_ptr(),
            up_straight.len(),
            up_diagonal.as_mut_ptr(),
            up_diagonal.len(),
        )
    }
}

/// Checks 24, 10, 11, 12. Leaves the codes of a grid as codes of another table in the first
/// rows × cols places of `converted`: each cell keeps its direction, or stays null or a pond. `from`
/// is the number of the table that the codes are of, `to` that of the table that `converted` gets;
/// they may be the same. 24 tells that one of the two is not 1 to 3, 12 that a code is not in table
/// `from`.
///
/// | table | E | SE | S | SW | W | NW | N | NE | null | pond |
/// |---|---|---|---|---|---|---|---|---|---|---|
/// | 1 ArcGIS | 1 | 2 | 4 | 8 | 16 | 32 | 64 | 128 | 0 | 255 |
/// | 2 GRASS | 8 | 7 | 6 | 5 | 4 | 3 | 2 | 1 | 0 | 255 |
/// | 3 RichDEM and PFA | 5 | 6 | 7 | 8 | 1 | 2 | 3 | 4 | 0 | 255 |
///
/// Every other function takes and leaves codes of table 1, and so are those of a sheet.
#[inline]
#[must_use]
pub fn convert(
    from: u32,
    to: u32,
    rows: usize,
    cols: usize,
    codes: &[u8],
    converted: &mut [u8],
) -> u32 {
    // SAFETY: as the root says of every call.
    unsafe {
        declared::jb_convert(
            from,
            to,
            rows,
            cols,
            codes.as_ptr(),
            codes.len(),
            converted.as_mut_ptr(),
            converted.len(),
        )
    }
}
