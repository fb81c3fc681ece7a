//! Tracing all outlets of a list by one call, and the part of the list of
//! starts that is one outlet's.

use std::ops::Range;

use super::{checked_edition, checked_outlets, fill, Terrain};
use crate::editions::Edition;
use crate::search::{Limit, Tree};
use crate::subwatershed::Division;
use crate::{check, Refusal};

/// The answer for a whole list: refused or not, and beside it the sums of the
/// searches' counts, both 0 on every refusal but 21.
#[derive(Clone, Copy, Debug, PartialEq, Eq)]
pub struct TracingAll {
    pub refusal: Option<Refusal>,
    pub visited: u32,
    pub dropped: u32,
}

impl TracingAll {
    /// The refusal's number, or 0.
    pub fn number(&self) -> u32 {
        self.refusal.map_or(0, |Refusal(number)| number)
    }

    /// Visited and dropped.
    pub fn sums(&self) -> [u32; 2] {
        [self.visited, self.dropped]
    }
}

/// Tracing all longest paths of every outlet by an edition, by stack with
/// dropping, in the order of the list (25, 10 to 12, 14 to 17, 20, 23, 21).
///
/// Past 17 the subaccumulation grid is filled, whatever comes. The working
/// space must have three numbers for each cell of the largest subwatershed;
/// past 23 those are 0. Accepted, the first places of the list hold the starts
/// of all outlets run together, the first of the counts how many are each
/// outlet's. Refused with 21, since the starts of all are too many for the
/// list, neither is touched.
pub fn trace_all(
    edition: u32,
    terrain: Terrain,
    outlets: &[u32],
    subaccumulation: &mut [u32],
    starts: &mut [u32],
    counts: &mut [u32],
    work: &mut [u32],
) -> TracingAll {
    match begin(edition, terrain, outlets, subaccumulation, counts.len(), work) {
        Ok((edition, division)) => end(edition, &division, outlets, starts, counts),
        Err(refusal) => TracingAll { refusal: Some(refusal), visited: 0, dropped: 0 },
    }
}

/// All checks but 21, the filled grid, and the cleared working numbers.
fn begin<'a>(
    edition: u32,
    terrain: Terrain<'a>,
    outlets: &[u32],
    subaccumulation: &mut [u32],
    count_places: usize,
    work: &mut [u32],
) -> Result<(Edition, Division<'a>), Refusal> {
    let edition = checked_edition(edition)?;
    let ground = terrain.checked(&[subaccumulation.len()])?;
    let division = checked_outlets(ground, outlets)?;
    fill(subaccumulation, &division.subaccumulation());
    let cells = outlets.iter().map(|&outlet| subaccumulation[outlet as usize] as usize);
    let needed = 3 * cells.max().expect("an outlet");
    check(20, work.len() >= needed)?;
    check(23, count_places >= outlets.len())?;
    work[..needed].fill(0);
    Ok((edition, division))
}

/// The searches, check 21, and the two lists.
fn end(
    edition: Edition,
    division: &Division,
    outlets: &[u32],
    list: &mut [u32],
    counts: &mut [u32],
) -> TracingAll {
    let starts = division.starts(edition);
    let (mut visited, mut dropped) = (0, 0);
    for &outlet in outlets {
        let search = Tree::above(division, outlet as usize).search(&starts, Some(Limit::Step));
        visited += search.visited;
        dropped += search.dropped;
    }
    let longest = division.longest_of_each(&starts, outlets);
    let paths: Vec<u32> = longest.iter().map(|longest| longest.starts.len() as u32).collect();
    let together: Vec<u32> = longest.into_iter().flat_map(|longest| longest.starts).collect();
    let refusal = check(21, together.len() <= list.len()).err();
    if refusal.is_none() {
        fill(list, &together);
        fill(counts, &paths);
    }
    TracingAll { refusal, visited, dropped }
}

/// The places of a list of starts that are the chosen outlet's, where the
/// starts are run together and the counts say how many are each outlet's.
///
/// There are none where the choice is no place of the counts, and where the
/// counts up to and with its own run past the list. What is empty begins at 0.
/// Counts may be any numbers, so they are added up in 128 bits.
pub fn starts_of(starts: &[u32], counts: &[u32], choice: usize) -> Range<usize> {
    if choice >= counts.len() {
        return 0..0;
    }
    let sum = |counts: &[u32]| counts.iter().map(|&count| u128::from(count)).sum::<u128>();
    let (from, to) = (sum(&counts[..choice]), sum(&counts[..=choice]));
    if from == to || to > starts.len() as u128 {
        return 0..0;
    }
    from as usize..to as usize
}
