//! Sheet files.

use crate::declared;

/// Checks 1 to 9, forward through the file. Leaves the codes and the outlets, as cell numbers, in
/// the first places; shape is rows, columns and outlets, all 0 on refusal. A sheet has up to 4,096
/// cells, and the list of outlets must have 256 places.
#[inline]
#[must_use]
pub fn read_sheet(file: &[u8], codes: &mut [u8], outlets: &mut [u32], shape: &mut [u32; 3]) -> u32 {
    // SAFETY: as the root says of every call.
    unsafe {
        declared::jb_read_sheet(
            file.as_ptr(),
            file.len(),
            codes.as_mut_ptr(),
            codes.len(),
            outlets.as_mut_ptr(),
            outlets.len(),
            shape,
        )
    }
}

/// Checks 2, 3 (of the codes), 5, 8, 7, 23. Leaves the sheet in the first bytes; size is how many,
/// 0 on refusal.
#[inline]
#[must_use]
pub fn write_sheet(
    rows: usize,
    cols: usize,
    codes: &[u8],
    outlets: &[u32],
    file: &mut [u8],
    size: &mut [u32; 1],
) -> u32 {
    // SAFETY: as the root says of every call.
    unsafe {
        declared::jb_write_sheet(
            rows,
            cols,
            codes.as_ptr(),
            codes.len(),
            outlets.as_ptr(),
            outlets.len(),
            file.as_mut_ptr(),
            file.len(),
            size,
        )
    }
}
