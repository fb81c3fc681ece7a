//! The tracing entries.

use super::{checked_edition, checked_outlets, fill, outlet_at, Terrain};
use crate::editions::Edition;
use crate::lengths::Length;
use crate::search::{Limit, Tree};
use crate::subwatershed::Division;
use crate::{check, Refusal};

/// The most cells of a subwatershed that is traced by recursion.
pub const MOST_BY_RECURSION: u32 = 4096;

/// A tracing answer: which kind it is, and beside it the search's counts,
/// both 0 on every refusal but 21.
#[derive(Clone, Copy, Debug, PartialEq, Eq)]
pub struct Tracing {
    pub kind: Kind,
    pub visited: u32,
    pub dropped: u32,
}

/// The kinds of a tracing answer.
#[derive(Clone, Copy, Debug, PartialEq, Eq)]
pub enum Kind {
    /// The length of the longest paths and their number.
    Found { length: Length, paths: u32 },
    /// Refused with 21: the true number of paths.
    NoPlace { paths: u32 },
    /// Any other refusal.
    Refused(Refusal),
}

impl Tracing {
    fn refused(refusal: Refusal) -> Self {
        Tracing { kind: Kind::Refused(refusal), visited: 0, dropped: 0 }
    }

    /// The refusal's number, or 0.
    pub fn number(&self) -> u32 {
        match self.kind {
            Kind::Found { .. } => 0,
            Kind::NoPlace { .. } => 21,
            Kind::Refused(Refusal(number)) => number,
        }
    }

    /// The answer as five numbers: straight, diagonal, paths, visited and
    /// dropped. There is no length on 21, and nothing on another refusal.
    pub fn results(&self) -> [u32; 5] {
        let (length, paths) = match self.kind {
            Kind::Found { length, paths } => (length, paths),
            Kind::NoPlace { paths } => (Length::ZERO, paths),
            Kind::Refused(_) => (Length::ZERO, 0),
        };
        let Length { straight, diagonal } = length;
        [straight, diagonal, paths, self.visited, self.dropped]
    }
}

/// The outlet to trace, by which edition, its subwatersheds, and its
/// subaccumulation.
struct Traced<'a> {
    edition: Edition,
    division: Division<'a>,
    outlet: usize,
    cells: u32,
}

/// What both tracing entries begin with: checks 25, 10 to 12 and 14 to 18. Past
/// them the lent grid is filled with the subaccumulation, and stays so on 19,
/// 20 and 21.
fn begin_tracing<'a>(
    edition: u32,
    terrain: Terrain<'a>,
    outlets: &[u32],
    place: usize,
    subaccumulation: &mut [u32],
) -> Result<Traced<'a>, Refusal> {
    let edition = checked_edition(edition)?;
    let ground = terrain.checked(&[subaccumulation.len()])?;
    let division = checked_outlets(ground, outlets)?;
    let outlet = outlet_at(outlets, place)?;
    fill(subaccumulation, &division.subaccumulation());
    Ok(Traced { edition, division, outlet, cells: subaccumulation[outlet] })
}

impl Traced<'_> {
    /// What both tracing entries end with: check 21 and the answer. Accepted,
    /// the first places of the list hold all longest starts in order; refused,
    /// every place holds the first of them.
    fn end(&self, dropping: bool, list: &mut [u32]) -> Tracing {
        let starts = self.division.starts(self.edition);
        let longest = self.division.longest(&starts, self.outlet);
        let tree = Tree::above(&self.division, self.outlet);
        let search = tree.search(&starts, dropping.then_some(Limit::Step));
        let paths = longest.starts.len();
        let held = paths.min(list.len());
        fill(list, &longest.starts[..held]);
        let length = longest.length;
        let kind = if held == paths {
            Kind::Found { length, paths: paths as u32 }
        } else {
            Kind::NoPlace { paths: paths as u32 }
        };
        Tracing { kind, visited: search.visited, dropped: search.dropped }
    }
}

/// Tracing all longest paths of one outlet by an edition, by recursion (25, 10
/// to 12, 14 to 19, 21), with or without dropping.
///
/// The subaccumulation grid is filled on acceptance and on 19 and 21; the list
/// on acceptance as far as there are paths, and on 21 whole.
pub fn trace_by_recursion(
    edition: u32,
    terrain: Terrain,
    outlets: &[u32],
    place: usize,
    dropping: bool,
    subaccumulation: &mut [u32],
    starts: &mut [u32],
) -> Tracing {
    let begun =
        begin_tracing(edition, terrain, outlets, place, subaccumulation).and_then(|traced| {
            check(19, traced.cells <= MOST_BY_RECURSION)?;
            Ok(traced)
        });
    match begun {
        Ok(traced) => traced.end(dropping, starts),
        Err(refusal) => Tracing::refused(refusal),
    }
}

/// Tracing all longest paths of one outlet by an edition, with lent working
/// space (25, 10 to 12, 14 to 18, 20, 21), with or without dropping.
///
/// As by recursion, with 20 for 19. The working space must have three numbers
/// for each cell of the subwatershed; on acceptance and on 21 those are left
/// 0, on 20 it is not touched.
#[allow(clippy::too_many_arguments)]
pub fn trace_by_stack(
    edition: u32,
    terrain: Terrain,
    outlets: &[u32],
    place: usize,
    dropping: bool,
    subaccumulation: &mut [u32],
    starts: &mut [u32],
    work: &mut [u32],
) -> Tracing {
    let begun =
        begin_tracing(edition, terrain, outlets, place, subaccumulation).and_then(|traced| {
            let needed = 3 * traced.cells as usize;
            check(20, work.len() >= needed)?;
            work[..needed].fill(0);
            Ok(traced)
        });
    match begun {
        Ok(traced) => traced.end(dropping, starts),
        Err(refusal) => Tracing::refused(refusal),
    }
}
