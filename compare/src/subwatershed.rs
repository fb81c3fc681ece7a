//! Outlets and what lies above them: subaccumulation, subwatersheds, the
//! longest walks and the order of their starts.

use std::cell::OnceCell;
use std::collections::HashMap;

use crate::editions::Starts;
use crate::ground::{Ground, Step};
use crate::lengths::Length;

/// Ground without rings, cut up by a list of outlets. Each outlet is a
/// non-null cell; all are different.
pub struct Division<'a> {
    ground: Ground<'a>,
    is_outlet: Vec<bool>,
    /// The step from each cell, looked up once.
    steps: Vec<Option<Step>>,
    /// What `meetings` tells, once it has been asked for.
    meetings: OnceCell<Vec<(usize, Meeting)>>,
}

/// Where a walk first meets an outlet, and how long it is up to there.
#[derive(Clone, Copy, Debug, PartialEq, Eq)]
pub struct Meeting {
    pub outlet: usize,
    pub length: Length,
}

/// The longest walks of a subwatershed, from cells where a path may start.
#[derive(Debug, PartialEq, Eq)]
pub struct Longest {
    pub length: Length,
    /// All such cells whose walk has that length, in order.
    pub starts: Vec<u32>,
}

/// A cell, and the length of its walk to its outlet.
type Walk = (usize, Length);

impl<'a> Division<'a> {
    pub fn new(ground: Ground<'a>, outlets: &[u32]) -> Self {
        let mut is_outlet = vec![false; ground.cells()];
        for &outlet in outlets {
            is_outlet[outlet as usize] = true;
        }
        let mut steps = vec![None; ground.cells()];
        for cell in ground.solid() {
            steps[cell] = ground.step(cell);
        }
        Division { ground, is_outlet, steps, meetings: OnceCell::new() }
    }

    pub fn ground(&self) -> Ground<'a> {
        self.ground
    }

    pub fn is_outlet(&self, cell: usize) -> bool {
        self.is_outlet[cell]
    }

    /// Subaccumulation: accumulation's sum, inflowing outlets left out.
    pub fn subaccumulation(&self) -> Vec<u32> {
        self.ground.accumulation_without(|cell| self.is_outlet(cell))
    }

    /// The inflows that are not outlets, in neighbour order, with their ways.
    pub fn inflows(&self, cell: usize) -> impl Iterator<Item = (usize, usize)> + '_ {
        self.ground.inflows(cell).filter(|&(_, inflow)| !self.is_outlet(inflow))
    }

    /// The walk from a non-null cell down to its first outlet, or whole where
    /// it meets none: each cell with the length up to there. A walk holds its
    /// own start, so that of an outlet has no other cell.
    pub fn walk(&self, cell: usize) -> impl Iterator<Item = (usize, Length)> + '_ {
        std::iter::successors(Some((cell, Length::ZERO)), |&(here, length)| {
            let step = if self.is_outlet(here) { None } else { self.steps[here] }?;
            Some((step.to as usize, length.with_step(step.diagonal)))
        })
    }

    /// The first outlet on the walk from a non-null cell, if there is one.
    pub fn meeting(&self, cell: usize) -> Option<Meeting> {
        let (outlet, length) = self.walk(cell).last()?;
        self.is_outlet(outlet).then_some(Meeting { outlet, length })
    }

    /// The cells of all subwatersheds by number, each with its meeting. Every
    /// non-null cell is walked from, once for all that ask.
    pub fn meetings(&self) -> &[(usize, Meeting)] {
        self.meetings.get_or_init(|| {
            let solid = self.ground.solid();
            solid.filter_map(|cell| Some((cell, self.meeting(cell)?))).collect()
        })
    }

    /// Is this a cell number of the outlet's subwatershed: the outlet, and
    /// each cell whose walk meets it before any other outlet?
    pub fn belongs(&self, cell: usize, outlet: usize) -> bool {
        cell < self.ground.cells()
            && !self.ground.is_null(cell)
            && self.meeting(cell).is_some_and(|meeting| meeting.outlet == outlet)
    }

    /// The cells from a start in the outlet's subwatershed to that outlet.
    pub fn path(&self, start: usize, outlet: usize) -> Vec<u32> {
        let upper = self.ground.walk(start).take_while(|&cell| cell != outlet);
        upper.chain([outlet]).map(|cell| cell as u32).collect()
    }

    /// The longest walks to the outlet: every cell of the subwatershed is
    /// walked from, of those where a path may start no length is greater than
    /// theirs, and all of them are listed. Two are ordered where their routes,
    /// read upward, part.
    pub fn longest(&self, starts: &Starts, outlet: usize) -> Longest {
        let meetings = self.meetings().iter().filter(|(_, meeting)| meeting.outlet == outlet);
        let walks = meetings.map(|&(cell, meeting)| (cell, meeting.length));
        self.longest_among(walks.collect(), starts, outlet)
    }

    /// The same for each of the outlets, with a single walk from each cell: it
    /// counts for the outlet that it meets.
    pub fn longest_of_each(&self, starts: &Starts, outlets: &[u32]) -> Vec<Longest> {
        let mut known: HashMap<usize, Vec<Walk>> = HashMap::new();
        for &(cell, Meeting { outlet, length }) in self.meetings() {
            known.entry(outlet).or_default().push((cell, length));
        }
        let mut walks = |outlet| known.remove(&outlet).expect("an outlet meets itself");
        let mut longest = |outlet| self.longest_among(walks(outlet), starts, outlet);
        outlets.iter().map(|&outlet| longest(outlet as usize)).collect()
    }

    fn longest_among(&self, mut walks: Vec<Walk>, starts: &Starts, outlet: usize) -> Longest {
        walks.retain(|&(cell, _)| starts.has(cell));
        let length = walks.iter().map(|&(_, length)| length).max();
        let length = length.expect("a cell of the first row is on the divide");
        walks.retain(|&(_, other)| other == length);
        let mut starts: Vec<u32> = walks.into_iter().map(|(cell, _)| cell as u32).collect();
        starts.sort_by_cached_key(|&start| self.route_upward(start as usize, outlet));
        Longest { length, starts }
    }

    /// The ways taken from the outlet up to a start of its subwatershed. Of
    /// two longest routes neither begins the other, so where they first differ
    /// the earlier neighbour is the smaller way.
    fn route_upward(&self, start: usize, outlet: usize) -> Vec<u8> {
        let mut route: Vec<u8> = self
            .path(start, outlet)
            .windows(2)
            .map(|pair| self.way_up(pair[1] as usize, pair[0] as usize))
            .collect();
        route.reverse();
        route
    }

    /// The way from a cell to one that flows into it.
    fn way_up(&self, cell: usize, inflow: usize) -> u8 {
        let mut ways = (0..8).filter(|&way| self.ground.neighbour(cell, way) == Some(inflow));
        ways.next().expect("a walk steps between neighbours") as u8
    }
}

#[cfg(test)]
pub(crate) mod tests {
    use super::*;
    use crate::editions::Edition;
    use crate::ground::tests::every_grid;

    /// Every grid of four cells without rings, under every list of outlets up to its order.
    pub(crate) fn every_division(judge: impl Fn(&Division, &[u32])) {
        for codes in every_grid(2, 2) {
            let ground = Ground::new(2, 2, &codes);
            if ground.has_ring() {
                continue;
            }
            for set in 1..16u32 {
                let outlets: Vec<u32> = (0..4).filter(|cell| set >> cell & 1 == 1).collect();
                if outlets.iter().all(|&outlet| !ground.is_null(outlet as usize)) {
                    judge(&Division::new(ground, &outlets), &outlets);
                }
            }
        }
    }

    /// Where paths may start by each edition.
    pub(crate) fn editions(division: &Division) -> [Starts; 2] {
        [Edition::First, Edition::Second].map(|edition| division.starts(edition))
    }

    #[test]
    fn subaccumulation_counts_the_subwatershed() {
        every_division(|division, outlets| {
            let subaccumulation = division.subaccumulation();
            for &outlet in outlets {
                let outlet = outlet as usize;
                let count = (0..4).filter(|&cell| division.belongs(cell, outlet)).count();
                assert_eq!(subaccumulation[outlet] as usize, count);
            }
            for cell in division.ground().solid() {
                let inflows = division.inflows(cell).map(|(_, c)| subaccumulation[c]);
                assert_eq!(subaccumulation[cell], 1 + inflows.sum::<u32>());
            }
        });
    }

    #[test]
    fn the_longest_of_each_are_those_of_one_after_the_other() {
        every_division(|division, outlets| {
            let backward: Vec<u32> = outlets.iter().rev().copied().collect();
            for list in [outlets, &backward] {
                for starts in editions(division) {
                    let each = division.longest_of_each(&starts, list);
                    let longest = |&outlet: &u32| division.longest(&starts, outlet as usize);
                    assert_eq!(each, list.iter().map(longest).collect::<Vec<Longest>>());
                }
            }
        });
    }

    #[test]
    fn longest_starts_are_headwaters() {
        let codes = [2, 4, 8, 1, 4, 16, 1, 4, 16];
        let division = Division::new(Ground::new(3, 3, &codes), &[7, 4]);
        let subaccumulation = division.subaccumulation();
        for outlet in [7, 4] {
            for start in division.longest(&Starts::Anywhere, outlet).starts {
                assert_eq!(subaccumulation[start as usize], 1);
            }
        }
    }

    #[test]
    fn an_outlet_meets_itself() {
        let codes = [1, 1, 1];
        let division = Division::new(Ground::new(1, 3, &codes), &[2, 1]);
        assert!(division.belongs(1, 1));
        assert!(!division.belongs(1, 2));
        assert!(!division.belongs(0, 2));
        assert_eq!(division.path(0, 1), [0, 1]);
        assert_eq!(division.path(1, 1), [1]);
    }

    #[test]
    fn a_pond_is_an_outlet_like_any_other() {
        let codes = [2, 4, 8, 1, 255, 16, 128, 64, 32];
        let division = Division::new(Ground::new(3, 3, &codes), &[4]);
        assert_eq!(division.subaccumulation()[4], 9);
        let longest = Longest { length: Length::new(0, 1), starts: vec![8, 6, 0, 2] };
        assert_eq!(division.longest(&Starts::Anywhere, 4), longest);
        assert_eq!(division.path(8, 4), [8, 4]);
        let alone = Division::new(Ground::new(1, 1, &[255]), &[0]);
        assert_eq!(
            alone.longest(&Starts::Anywhere, 0),
            Longest { length: Length::ZERO, starts: vec![0] }
        );
        assert_eq!(alone.path(0, 0), [0]);
    }

    #[test]
    fn what_drains_to_a_pond_that_is_no_outlet_belongs_nowhere() {
        let codes = [1, 255, 16, 255, 16];
        let division = Division::new(Ground::new(1, 5, &codes), &[3]);
        let belonging: Vec<usize> = (0..5).filter(|&cell| division.belongs(cell, 3)).collect();
        assert_eq!(belonging, [3, 4]);
        assert!((0..3).all(|cell| division.meeting(cell).is_none()));
        assert_eq!(division.subaccumulation(), [1, 3, 1, 2, 1]);
    }

    #[test]
    fn ties_are_ordered_by_route_and_not_by_number() {
        // Ways up from cell 4: SE, SW, NW, NE are cells 8, 6, 0, 2.
        let codes = [2, 4, 8, 1, 4, 16, 128, 0, 32];
        let division = Division::new(Ground::new(3, 3, &codes), &[4]);
        let longest = division.longest(&Starts::Anywhere, 4);
        assert_eq!(longest.length, Length::new(0, 1));
        assert_eq!(longest.starts, [8, 6, 0, 2]);
    }
}
