//! A small ground with its outlets, and the calls that all such cases share.

use second_reading::entries::{self, Kind, Terrain, Tracing};
use second_reading::lengths::Length;

/// What a lent slice holds before a call.
pub const UNTOUCHED: u32 = 0xDEAD_BEEF;

/// Sides, codes, the accumulation that is theirs, and outlets.
pub struct Case {
    pub rows: usize,
    pub cols: usize,
    pub codes: &'static [u8],
    pub accumulation: &'static [u32],
    pub outlets: &'static [u32],
}

impl Case {
    pub fn terrain(&self) -> Terrain<'_> {
        Terrain {
            rows: self.rows,
            cols: self.cols,
            codes: self.codes,
            accumulation: self.accumulation,
        }
    }

    pub fn accumulates(&self) {
        let mut accumulation = vec![UNTOUCHED; self.codes.len() + 1];
        assert_eq!(
            entries::accumulate(self.rows, self.cols, self.codes, &mut accumulation),
            Ok(())
        );
        assert_eq!(accumulation[..self.codes.len()], *self.accumulation);
        assert_eq!(accumulation[self.codes.len()], UNTOUCHED);
        assert_eq!(entries::check_accumulation(self.terrain()), Ok(()));
    }

    /// Traces by both engines with a list of `room` places; both give the same
    /// answer, list and grid.
    pub fn traced(
        &self,
        edition: u32,
        place: usize,
        dropping: bool,
        room: usize,
    ) -> (Tracing, Vec<u32>, Vec<u32>) {
        let cells = self.codes.len();
        let mut grid = vec![UNTOUCHED; cells];
        let mut list = vec![UNTOUCHED; room];
        let mut work = vec![UNTOUCHED; 3 * cells];
        let by_stack = entries::trace_by_stack(
            edition,
            self.terrain(),
            self.outlets,
            place,
            dropping,
            &mut grid,
            &mut list,
            &mut work,
        );
        let above = grid[self.outlets[place] as usize] as usize;
        assert!(work[..3 * above].iter().all(|&number| number == 0));
        assert!(work[3 * above..].iter().all(|&number| number == UNTOUCHED));
        let mut grid_too = vec![UNTOUCHED; cells];
        let mut list_too = vec![UNTOUCHED; room];
        let by_recursion = entries::trace_by_recursion(
            edition,
            self.terrain(),
            self.outlets,
            place,
            dropping,
            &mut grid_too,
            &mut list_too,
        );
        assert_eq!((by_stack, &list, &grid), (by_recursion, &list_too, &grid_too));
        (by_stack, list, grid)
    }

    /// The length and the starts, where every headwater is on the divide, so
    /// that both editions give the same. Hands back visited and dropped with
    /// dropping.
    pub fn has_longest(&self, place: usize, length: (u32, u32), starts: &[u32]) -> (u32, u32) {
        let [first, second] =
            [1, 2].map(|edition| self.has_longest_by(edition, place, length, starts));
        assert_eq!(first, second);
        first
    }

    /// The length and the starts by an edition, alike with and without
    /// dropping; without, every cell is visited. Hands back visited and dropped
    /// with dropping.
    pub fn has_longest_by(
        &self,
        edition: u32,
        place: usize,
        length: (u32, u32),
        starts: &[u32],
    ) -> (u32, u32) {
        let kind =
            Kind::Found { length: Length::new(length.0, length.1), paths: starts.len() as u32 };
        let (whole, list, grid) = self.traced(edition, place, false, starts.len() + 1);
        let above = grid[self.outlets[place] as usize];
        assert_eq!(whole, Tracing { kind, visited: above, dropped: 0 });
        assert_eq!(list[..starts.len()], *starts);
        assert_eq!(list[starts.len()], UNTOUCHED);
        let (part, list_too, _) = self.traced(edition, place, true, starts.len() + 1);
        assert_eq!(part.kind, kind);
        assert_eq!(list, list_too);
        assert_eq!(part.visited + part.dropped, above);
        (part.visited, part.dropped)
    }
}
