//! The cells of one path.

use crate::declared;

/// Checks 10, 11, 12, 14 to 18, 22, 23. Leaves the path's cells, from its start to the outlet at a
/// place of the list, in the first places; drawn is how many, 0 on refusal.
#[inline]
#[must_use]
pub fn draw(
    rows: usize,
    cols: usize,
    codes: &[u8],
    accumulation: &[u32],
    outlets: &[u32],
    place: usize,
    start: u32,
    path: &mut [u32],
    drawn: &mut [u32; 1],
) -> u32 {
    // SAFETY: as the root says of every call.
    unsafe {
        declared::jb_draw(
            rows,
            cols,
            codes.as_ptr(),
            codes.len(),
            accumulation.as_ptr(),
            accumulation.len(),
            outlets.as_ptr(),
            outlets.len(),
            place,
            start,
            path.as_mut_ptr(),
            path.len(),
            drawn,
        )
    }
}
