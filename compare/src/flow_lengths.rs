//! Flow lengths: how far each cell of a subwatershed is from its outlet, and
//! how far from it the farthest cell above it is.

use std::cmp::Reverse;

use crate::lengths::Length;
use crate::subwatershed::Division;

/// The lengths of one cell, both zero if it is of no subwatershed.
#[derive(Clone, Copy, Debug, PartialEq, Eq)]
pub struct FlowLengths {
    /// Downstream, to its outlet.
    pub down: Length,
    /// Upstream: 0 at a headwater, else the greatest over inflows, outlets
    /// left out, of theirs plus the step.
    pub up: Length,
}

impl Division<'_> {
    /// The lengths of every cell, by walking down from each.
    ///
    /// Upstream is the greatest length of a walk to the cell from a cell above
    /// it. From there on the walks are the same, so among those above it the
    /// farthest from the outlet is the farthest from the cell: let the farthest
    /// from the outlets walk first, and the first to come to a cell tells it.
    pub fn flow_lengths(&self) -> Vec<FlowLengths> {
        let ground = self.ground();
        let mut lengths =
            vec![FlowLengths { down: Length::ZERO, up: Length::ZERO }; ground.cells()];
        let mut starts = Vec::new();
        for &(cell, meeting) in self.meetings() {
            lengths[cell].down = meeting.length;
            starts.push(cell);
        }
        starts.sort_by_key(|&cell| Reverse(lengths[cell].down));
        let mut reached = vec![false; ground.cells()];
        for start in starts {
            for (cell, length) in self.walk(start) {
                // One that has been here has been everywhere below, too.
                if reached[cell] {
                    break;
                }
                reached[cell] = true;
                lengths[cell].up = length;
            }
        }
        lengths
    }
}

#[cfg(test)]
pub(crate) mod tests {
    use super::*;
    use crate::editions::Starts;
    use crate::ground::Ground;
    use crate::random::Random;
    use crate::subwatershed::tests::every_division;

    /// Divisions of every grid of four cells, and of many larger ones whose cells flow east or
    /// south, so that there is no ring, or are ponds.
    pub(crate) fn many_divisions(judge: impl Fn(&Division, &[u32])) {
        every_division(&judge);
        let mut random = Random::new(1);
        for _ in 0..3000 {
            let (rows, cols) = (random.between(1, 7), random.between(1, 7));
            let codes: Vec<u8> =
                (0..rows * cols).map(|_| random.pick(&[1, 2, 2, 4, 4, 8, 8, 0, 255])).collect();
            let ground = Ground::new(rows, cols, &codes);
            let mut outlets: Vec<u32> = ground.solid().map(|cell| cell as u32).collect();
            random.shuffle(&mut outlets);
            outlets.truncate(random.between(1, 5));
            judge(&Division::new(ground, &outlets), &outlets);
        }
    }

    /// Downstream step by step: none where the walk meets no outlet.
    fn down(division: &Division, cell: usize) -> Option<Length> {
        if division.is_outlet(cell) {
            return Some(Length::ZERO);
        }
        let step = division.ground().step(cell)?;
        Some(down(division, step.to as usize)?.with_step(step.diagonal))
    }

    /// Upstream in the words of its definition.
    fn up(division: &Division, cell: usize) -> Length {
        let inflows = division.inflows(cell);
        let theirs = inflows.map(|(way, inflow)| up(division, inflow).with_step(way % 2 == 1));
        theirs.max().unwrap_or(Length::ZERO)
    }

    #[test]
    fn lengths_are_those_of_the_definition() {
        many_divisions(|division, _| {
            let ground = division.ground();
            for (cell, found) in division.flow_lengths().into_iter().enumerate() {
                let down = if ground.is_null(cell) { None } else { down(division, cell) };
                let due = match down {
                    Some(down) => FlowLengths { down, up: up(division, cell) },
                    None => FlowLengths { down: Length::ZERO, up: Length::ZERO },
                };
                assert_eq!(found, due);
            }
        });
    }

    /// Smith's law: a cell's two lengths add up to the longest exactly if it lies on a listed
    /// path, and never to more.
    #[test]
    fn both_lengths_add_up_on_the_longest_paths_alone() {
        many_divisions(|division, outlets| {
            let lengths = division.flow_lengths();
            for outlet in outlets.iter().map(|&outlet| outlet as usize) {
                let longest = division.longest(&Starts::Anywhere, outlet);
                let paths =
                    longest.starts.iter().map(|&start| division.path(start as usize, outlet));
                let on_paths: Vec<u32> = paths.flatten().collect();
                for cell in (0..lengths.len()).filter(|&cell| division.belongs(cell, outlet)) {
                    let FlowLengths { down, up } = lengths[cell];
                    let sum = Length::new(down.straight + up.straight, down.diagonal + up.diagonal);
                    assert!(sum <= longest.length);
                    assert_eq!(sum == longest.length, on_paths.contains(&(cell as u32)));
                }
                assert_eq!(lengths[outlet].up, longest.length);
                for start in longest.starts {
                    let due = FlowLengths { down: longest.length, up: Length::ZERO };
                    assert_eq!(lengths[start as usize], due);
                }
            }
        });
    }

    /// The lengths on a grid: downstream, then upstream, as straight and diagonal steps.
    fn on_grid(cols: usize, codes: &[u8], outlets: &[u32]) -> [Vec<(u32, u32)>; 2] {
        let ground = Ground::new(codes.len() / cols, cols, codes);
        let lengths = Division::new(ground, outlets).flow_lengths();
        let counts = |length: Length| (length.straight, length.diagonal);
        let down = lengths.iter().map(|cell| counts(cell.down)).collect();
        [down, lengths.iter().map(|cell| counts(cell.up)).collect()]
    }

    const NONE: (u32, u32) = (0, 0);

    #[test]
    fn an_upper_outlet_keeps_its_cells() {
        let codes = [2, 4, 8, 1, 4, 16, 1, 4, 16];
        let [down, up] = on_grid(3, &codes, &[7, 4]);
        let (a, b) = ((1, 0), (0, 1));
        assert_eq!(down, [b, a, b, a, NONE, a, a, NONE, a]);
        assert_eq!(up, [NONE, NONE, NONE, NONE, b, NONE, NONE, a, NONE]);
        // Without the lower one, what lies below the upper one is of no subwatershed.
        let [down, up] = on_grid(3, &codes, &[4]);
        assert_eq!(down, [b, a, b, a, NONE, a, NONE, NONE, NONE]);
        assert_eq!(up, [NONE, NONE, NONE, NONE, b, NONE, NONE, NONE, NONE]);
    }

    #[test]
    fn headwaters_fed_by_outlets_and_outlets_that_are_headwaters() {
        let [down, up] = on_grid(5, &[1; 5], &[4, 2, 0]);
        let a = (1, 0);
        assert_eq!(down, [NONE, a, NONE, a, NONE]);
        assert_eq!(up, [NONE, NONE, a, NONE, a]);
    }

    #[test]
    fn null_cells_and_walks_that_meet_no_outlet() {
        let [down, up] = on_grid(7, &[1, 1, 1, 1, 0, 16, 16], &[1, 6]);
        assert_eq!(down, [(1, 0), NONE, NONE, NONE, NONE, NONE, NONE]);
        assert_eq!(up, [NONE, (1, 0), NONE, NONE, NONE, NONE, NONE]);
    }

    #[test]
    fn ponds_that_are_outlets_and_ponds_that_are_none() {
        let codes = [1, 255, 16, 255, 16];
        let a = (1, 0);
        let [down, up] = on_grid(5, &codes, &[1]);
        assert_eq!(down, [a, NONE, a, NONE, NONE]);
        assert_eq!(up, [NONE, a, NONE, NONE, NONE]);
        let [down, up] = on_grid(5, &codes, &[3, 1]);
        assert_eq!(down, [a, NONE, a, NONE, a]);
        assert_eq!(up, [NONE, a, NONE, a, NONE]);
    }

    #[test]
    fn ties_and_all_but_ties() {
        // Two routes of one straight and one diagonal step, in either order.
        let [down, up] = on_grid(3, &[2, 0, 4, 0, 4, 8, 0, 4, 0], &[7]);
        let (a, b, both) = ((1, 0), (0, 1), (1, 1));
        assert_eq!(down, [both, NONE, both, NONE, a, b, NONE, NONE, NONE]);
        assert_eq!(up, [NONE, NONE, NONE, NONE, b, a, NONE, both, NONE]);
        // Seven straight steps are less than five diagonal ones, eight are more.
        for (straight, farthest) in [(7, (0, 5)), (8, (8, 0))] {
            let cols = 6 + straight;
            let mut codes = vec![0; 6 * cols];
            (0..5).for_each(|row| codes[row * cols + row] = 2);
            codes[5 * cols + 5] = 4;
            codes[5 * cols + 6..].fill(16);
            let outlet = 5 * cols + 5;
            assert_eq!(on_grid(cols, &codes, &[outlet as u32])[1][outlet], farthest);
        }
    }
}
