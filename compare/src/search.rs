//! The search and what it counts, by recursion over the whole tree of a
//! subwatershed.

use crate::editions::Starts;
use crate::lengths::Length;
use crate::subwatershed::Division;

/// A subwatershed as a tree: the outlet is the root, and the children of a
/// cell are its inflows in neighbour order, outlets left out.
pub struct Tree {
    nodes: Vec<Node>,
}

struct Node {
    /// The cell's number.
    cell: u32,
    /// The number of cells here and above: the cell's subaccumulation.
    cells: u32,
    /// The length of the cell's walk to the outlet.
    length: Length,
    inflows: Vec<Inflow>,
}

/// An inflow's place in the tree, and whether the step into it is diagonal.
struct Inflow {
    place: usize,
    diagonal: bool,
}

const ROOT: usize = 0;

/// The limit of a neighbour with n cells, about to be entered by a step from a
/// cell at length d. No walk from those cells is longer.
#[derive(Clone, Copy, Debug, PartialEq, Eq)]
pub enum Limit {
    /// 01's, kept to be compared with: d + n√2, the step taken as diagonal.
    First,
    /// The one that tracings drop by: d, the true step, and (n − 1)√2.
    Step,
}

impl Limit {
    fn of(self, d: Length, diagonal: bool, n: u32) -> Length {
        match self {
            Limit::First => d.with_diagonals(n),
            Limit::Step => d.with_step(diagonal).with_diagonals(n - 1),
        }
    }
}

/// What a search has counted and met.
#[derive(Clone, Debug, Default, PartialEq, Eq)]
pub struct Search {
    /// Cells visited.
    pub visited: u32,
    /// The sum of n over drops.
    pub dropped: u32,
    /// Neighbours dropped that a straight step would have entered.
    pub straight_drops: u32,
    /// Neighbours dropped that a diagonal step would have entered.
    pub diagonal_drops: u32,
    /// Neighbours entered whose limit equals the greatest length met.
    pub equal_limits: u32,
    /// Headwaters visited at which no length is met.
    pub met_in_vain: u32,
    /// The greatest length met; none before the first.
    pub greatest: Option<Length>,
    /// The cells where it was met, as they were visited.
    pub starts: Vec<u32>,
}

impl Search {
    fn meet(&mut self, cell: u32, length: Length) {
        if Some(length) > self.greatest {
            self.greatest = Some(length);
            self.starts.clear();
        }
        if Some(length) == self.greatest {
            self.starts.push(cell);
        }
    }

    fn drop(&mut self, n: u32, diagonal: bool) {
        self.dropped += n;
        if diagonal {
            self.diagonal_drops += 1;
        } else {
            self.straight_drops += 1;
        }
    }
}

impl Tree {
    pub fn above(division: &Division, outlet: usize) -> Tree {
        let leaf =
            |cell: usize, length| Node { cell: cell as u32, cells: 1, length, inflows: Vec::new() };
        let mut nodes = vec![leaf(outlet, Length::ZERO)];
        let mut here = ROOT;
        while here < nodes.len() {
            for (way, inflow) in division.inflows(nodes[here].cell as usize) {
                let diagonal = way % 2 == 1;
                let length = nodes[here].length.with_step(diagonal);
                let place = nodes.len();
                nodes[here].inflows.push(Inflow { place, diagonal });
                nodes.push(leaf(inflow, length));
            }
            here += 1;
        }
        // Inflows stand after the cell they flow into.
        for here in (0..nodes.len()).rev() {
            let above: u32 = nodes[here].inflows.iter().map(|i| nodes[i.place].cells).sum();
            nodes[here].cells += above;
        }
        Tree { nodes }
    }

    /// The number of cells in the tree.
    pub fn cells(&self) -> u32 {
        self.nodes[ROOT].cells
    }

    /// The search from the outlet, meeting lengths where these starts say,
    /// dropping by a limit or not at all. Recursion goes as deep as the longest
    /// route has cells; the caller's stack must bear that.
    pub fn search(&self, starts: &Starts, dropping: Option<Limit>) -> Search {
        let mut search = Search::default();
        self.visit(ROOT, starts, dropping, &mut search);
        search
    }

    /// Visits a cell, and meets a length there or does not, before its inflows;
    /// and finishes one inflow before it turns to the next.
    fn visit(&self, here: usize, starts: &Starts, dropping: Option<Limit>, search: &mut Search) {
        let node = &self.nodes[here];
        search.visited += 1;
        if starts.met_at(node.cell as usize, node.cells) {
            search.meet(node.cell, node.length);
        } else if node.cells == 1 {
            search.met_in_vain += 1;
        }
        for &Inflow { place, diagonal } in &node.inflows {
            let n = self.nodes[place].cells;
            let limit = dropping.map(|limit| limit.of(node.length, diagonal, n));
            if limit.is_some_and(|limit| is_dropped(limit, search.greatest)) {
                search.drop(n, diagonal);
            } else {
                search.equal_limits += u32::from(limit.is_some() && limit == search.greatest);
                self.visit(place, starts, dropping, search);
            }
        }
    }
}

/// A neighbour is dropped exactly if a length has been met and its limit is
/// shorter than the greatest met so far.
fn is_dropped(limit: Length, greatest: Option<Length>) -> bool {
    greatest.is_some_and(|greatest| limit < greatest)
}

#[cfg(test)]
mod tests {
    use super::*;
    use crate::ground::tests::every_list;
    use crate::ground::{Ground, NULL, POND};
    use crate::subwatershed::tests::{editions, every_division};

    fn search(rows: usize, cols: usize, codes: &[u8], outlet: u32, limit: Limit) -> Search {
        let division = Division::new(Ground::new(rows, cols, codes), &[outlet]);
        Tree::above(&division, outlet as usize).search(&Starts::Anywhere, Some(limit))
    }

    /// Visited and dropped, by the first limit and by the step's.
    fn counts(rows: usize, cols: usize, codes: &[u8], outlet: u32) -> [(u32, u32); 2] {
        [Limit::First, Limit::Step].map(|limit| {
            let found = search(rows, cols, codes, outlet, limit);
            (found.visited, found.dropped)
        })
    }

    /// Three straight and two diagonal steps from the outlet.
    const D: Length = Length::new(3, 2);

    #[test]
    fn limits() {
        for diagonal in [false, true] {
            assert_eq!(Limit::First.of(D, diagonal, 5), Length::new(3, 7));
        }
        assert_eq!(Limit::Step.of(D, false, 5), Length::new(4, 6));
        assert_eq!(Limit::Step.of(D, true, 5), Length::new(3, 7));
        // That of a single cell is its own length.
        assert_eq!(Limit::Step.of(D, false, 1), Length::new(4, 2));
        assert_eq!(Limit::Step.of(D, true, 1), Length::new(3, 3));
    }

    #[test]
    fn no_drop_before_a_length_is_met_or_at_equal_length() {
        assert!(!is_dropped(Limit::Step.of(Length::ZERO, false, 1), None));
        assert!(!is_dropped(Limit::Step.of(Length::ZERO, true, 1), None));
        let dropped = |diagonal, n, (a, b)| {
            is_dropped(Limit::Step.of(D, diagonal, n), Some(Length::new(a, b)))
        };
        // 4 + 6√2 lies between 11 + √2 and 7 + 4√2.
        assert!(!dropped(false, 5, (4, 6)));
        assert!(!dropped(false, 5, (11, 1)));
        assert!(dropped(false, 5, (7, 4)));
        // 3 + 7√2 lies between 10 + 2√2 and 13.
        assert!(!dropped(true, 5, (3, 7)));
        assert!(!dropped(true, 5, (10, 2)));
        assert!(dropped(true, 5, (13, 0)));
        // 4 + 2√2 and 3 + 3√2 are the lengths of single cells.
        assert!(!dropped(false, 1, (4, 2)));
        assert!(dropped(false, 1, (3, 3)));
        assert!(!dropped(true, 1, (3, 3)));
        assert!(dropped(true, 1, (2, 4)));
    }

    #[test]
    fn a_drop_takes_all_cells_above() {
        assert_eq!(counts(1, 7, &[1, 1, 4, 16, 16, 16, 16], 2), [(5, 2), (5, 2)]);
    }

    #[test]
    fn what_only_the_steps_limit_drops() {
        // √2 is met first; then the southern neighbour is one straight step away.
        assert_eq!(counts(2, 2, &[64, 0, 64, 32], 0), [(3, 0), (2, 1)]);
        // 2√2 is met first; then come two cells to the south, 1 + √2 at most.
        assert_eq!(counts(3, 3, &[64, 0, 0, 64, 32, 0, 64, 0, 32], 0), [(4, 1), (3, 2)]);
    }

    #[test]
    fn an_equal_limit_is_entered_and_what_is_shorter_above_it_dropped() {
        // By a straight step: 1 + √2 is met first, and is the limit of 3.
        let straight = search(3, 2, &[4, 4, 2, 4, 0, 4], 5, Limit::Step);
        // By a diagonal step: 2√2 is met first, and is the limit of 7.
        let codes = [2, 0, 0, 4, 0, 2, 0, 8, 0, 0, 4, 0];
        let diagonal = search(3, 4, &codes, 10, Limit::Step);
        for found in [straight, diagonal] {
            assert_eq!((found.visited, found.dropped, found.starts), (4, 1, vec![0]));
            assert_eq!((found.equal_limits, found.straight_drops, found.diagonal_drops), (1, 1, 0));
        }
    }

    /// Every grid of that many rows and columns, with a pond for all codes that
    /// point off the grid: it flows nowhere as they do.
    fn every_flow(rows: usize, cols: usize) -> impl Iterator<Item = Vec<u8>> {
        let codes = vec![NULL; rows * cols];
        let ground = Ground::new(rows, cols, &codes);
        let choices: Vec<Vec<u8>> = (0..ground.cells())
            .map(|cell| {
                let ways = (0..8).filter(|&way| ground.neighbour(cell, way).is_some());
                ways.map(|way| 1 << way).chain([NULL, POND]).collect()
            })
            .collect();
        let grids = choices.iter().map(Vec::len).product();
        (0..grids).map(move |mut number: usize| {
            let mut pick = |codes: &Vec<u8>| {
                let code = codes[number % codes.len()];
                number /= codes.len();
                code
            };
            choices.iter().map(&mut pick).collect()
        })
    }

    /// By either edition all searches list its longest starts and count every
    /// cell; by the step's limit no more are visited than by the first, and by
    /// edition 2 no fewer than by edition 1. Tells whether by the step's limit
    /// fewer are.
    fn visits_fewer(division: &Division, outlet: usize) -> bool {
        let tree = Tree::above(division, outlet);
        let cells = division.subaccumulation()[outlet];
        assert_eq!(tree.cells(), cells);
        let mut fewer = false;
        let [first, second] = editions(division).map(|starts| {
            let longest = division.longest(&starts, outlet);
            let [whole, first, step] = [None, Some(Limit::First), Some(Limit::Step)]
                .map(|limit| tree.search(&starts, limit));
            assert_eq!((whole.visited, whole.dropped), (cells, 0));
            for found in [&whole, &first, &step] {
                assert_eq!(found.visited + found.dropped, cells);
                assert_eq!(found.greatest, Some(longest.length));
                assert_eq!(found.starts, longest.starts);
            }
            assert!(step.visited <= first.visited && step.dropped >= first.dropped);
            fewer |= step.visited < first.visited;
            step
        });
        assert!(first.visited <= second.visited && first.greatest >= second.greatest);
        fewer
    }

    #[test]
    fn both_limits_list_what_no_dropping_lists() {
        every_division(|division, outlets| {
            for &outlet in outlets {
                visits_fewer(division, outlet as usize);
            }
        });
        // In a row all codes that go neither east nor west flow off like 4.
        let rows = every_list(&[0, 1, 4, 16, 255], 6).map(|codes| (1, 6, codes));
        let flows = |rows, cols| every_flow(rows, cols).map(move |codes| (rows, cols, codes));
        let mut fewer = 0;
        for (rows, cols, codes) in rows.chain(flows(2, 3)).chain(flows(3, 2)) {
            let ground = Ground::new(rows, cols, &codes);
            if ground.has_ring() {
                continue;
            }
            for outlet in ground.solid() {
                let division = Division::new(ground, &[outlet as u32]);
                fewer += u32::from(visits_fewer(&division, outlet));
            }
        }
        assert!(fewer > 0);
    }
}
