//! All longest paths to every outlet of a list, by one call.

use crate::declared;

/// Checks 25, 10, 11, 12, 14 to 17, 20, 23, 21. Traces all longest paths to every outlet of the list,
/// in its order, as `trace_by_stack` does by that edition with dropping, and tests the accumulation
/// once for all.
///
/// Leaves the subaccumulation in its first rows × cols places, the starts of all outlets, run
/// together, in theirs, and how many each outlet has in the first counts: `starts_of` finds those of
/// one. The working space takes three numbers for each cell of the listed outlet that has the most,
/// which end as 0. Sums: the cells visited and those dropped, over all outlets.
///
/// 23 is for fewer counts than outlets, 21 for a list with fewer places than all outlets have
/// starts. 20 and 23 leave the subaccumulation. 21 leaves it and the zeros in the working space, and
/// tells the sums, but list and counts stay as they were. Every other refusal tells two zeros.
#[inline]
#[must_use]
pub fn trace_all(
    edition: u32,
    rows: usize,
    cols: usize,
    codes: &[u8],
    accumulation: &[u32],
    outlets: &[u32],
    subaccumulation: &mut [u32],
    starts: &mut [u32],
    counts: &mut [u32],
    work: &mut [u32],
    sums: &mut [u32; 2],
) -> u32 {
    // SAFETY: as the root says of every call.
    unsafe {
        declared::jb_trace_all(
            edition,
            rows,
            cols,
            codes.as_ptr(),
            codes.len(),
            accumulation.as_ptr(),
            accumulation.len(),
            outlets.as_ptr(),
            outlets.len(),
            subaccumulation.as_mut_ptr(),
            subaccumulation.len(),
            starts.as_mut_ptr(),
            starts.len(),
            counts.as_mut_ptr(),
            counts.len(),
            work.as_mut_ptr(),
            work.len(),
            sums,
        )
    }
}

/// The part of a list of starts that is one outlet's, by the counts that `trace_all` left: where it
/// begins and how many it has. The choice is the outlet's place in the list of outlets, counted from
/// 0. Both are 0 where the part is empty: where the choice is beyond the counts, where its own count
/// is 0, and where the counts up to and with its own add up to more than there are starts. Counts may
/// be any numbers.
#[inline]
pub fn starts_of(starts: &[u32], counts: &[u32], choice: usize, part: &mut [usize; 2]) {
    // SAFETY: as the root says of every call.
    unsafe {
        declared::jb_starts_of(
            starts.as_ptr(),
            starts.len(),
            counts.as_ptr(),
            counts.len(),
            choice,
            part,
        )
    }
}
