//! The ground: a grid of code bytes, its neighbours, walks and rings, and the
//! accumulation that they define.

/// Row and column change towards each neighbour in the one order that is ever
/// used: E, SE, S, SW, W, NW, N, NE. Rows grow to the south. A neighbour's
/// place in this list is its *way*; the odd ways are diagonal.
pub const NEIGHBOURS: [(isize, isize); 8] =
    [(0, 1), (1, 1), (1, 0), (1, -1), (0, -1), (-1, -1), (-1, 0), (-1, 1)];

/// The code of a null cell: no ground.
pub const NULL: u8 = 0;

/// The code of a pond: ground that drains nowhere.
pub const POND: u8 = 255;

/// Is the byte among the ten codes: that of a null cell, that of a pond, or one
/// that goes to a neighbour?
pub fn is_code(byte: u8) -> bool {
    byte == NULL || byte == POND || way_of(byte).is_some()
}

/// The way that a code goes, which is `1 << way`. A null cell and a pond go
/// none.
pub fn way_of(code: u8) -> Option<usize> {
    code.is_power_of_two().then(|| code.trailing_zeros() as usize)
}

/// A grid of R rows and C columns with a code at each cell; cells are numbered
/// row × C + column.
#[derive(Clone, Copy)]
pub struct Ground<'a> {
    rows: usize,
    cols: usize,
    codes: &'a [u8],
}

/// One step of a walk: the cell it leads to, and whether it is diagonal.
#[derive(Clone, Copy, Debug, PartialEq, Eq)]
pub struct Step {
    pub to: u32,
    pub diagonal: bool,
}

impl<'a> Ground<'a> {
    /// The ground of the first R × C codes; more of them may be lent.
    pub fn new(rows: usize, cols: usize, codes: &'a [u8]) -> Self {
        Ground { rows, cols, codes: &codes[..rows * cols] }
    }

    /// The number of cells, null cells too.
    pub fn cells(&self) -> usize {
        self.codes.len()
    }

    pub fn is_null(&self, cell: usize) -> bool {
        self.codes[cell] == NULL
    }

    pub fn is_pond(&self, cell: usize) -> bool {
        self.codes[cell] == POND
    }

    /// The non-null cells by number, ponds among them.
    pub fn solid(&self) -> impl Iterator<Item = usize> + 'a {
        let codes = self.codes;
        (0..codes.len()).filter(move |&cell| codes[cell] != NULL)
    }

    /// The step that a non-null cell's code tells, or none where the walk ends:
    /// at a pond, and where the code points off the grid or to a null cell.
    pub fn step(&self, cell: usize) -> Option<Step> {
        let way = way_of(self.codes[cell])?;
        let to = self.neighbour(cell, way)?;
        let step = Step { to: to as u32, diagonal: way % 2 == 1 };
        (!self.is_null(to)).then_some(step)
    }

    /// The cell that a non-null cell flows into, if any.
    pub fn below(&self, cell: usize) -> Option<usize> {
        self.step(cell).map(|step| step.to as usize)
    }

    /// The cells of the walk from a non-null cell, that cell first. Endless on
    /// a ring.
    pub fn walk(&self, cell: usize) -> impl Iterator<Item = usize> + 'a {
        let ground = *self;
        std::iter::successors(Some(cell), move |&cell| ground.below(cell))
    }

    /// The neighbour that way, if it lies on the grid.
    pub fn neighbour(&self, cell: usize, way: usize) -> Option<usize> {
        let (down, right) = NEIGHBOURS[way];
        let row = (cell / self.cols).checked_add_signed(down)?;
        let col = (cell % self.cols).checked_add_signed(right)?;
        (row < self.rows && col < self.cols).then(|| row * self.cols + col)
    }

    /// The neighbours whose codes point at the cell, in neighbour order, each
    /// with its way.
    pub fn inflows(&self, cell: usize) -> impl Iterator<Item = (usize, usize)> + 'a {
        let ground = *self;
        (0..8).filter_map(move |way| {
            let neighbour = ground.neighbour(cell, way)?;
            let back = 1 << ((way + 4) % 8);
            (ground.codes[neighbour] == back).then_some((way, neighbour))
        })
    }

    /// Does some walk come back to a cell? Each walk in turn leaves its own
    /// mark until it ends, meets an older walk's mark, or its own.
    pub fn has_ring(&self) -> bool {
        const UNMARKED: u32 = u32::MAX;
        let mut marks = vec![UNMARKED; self.cells()];
        for start in self.solid() {
            let mark = start as u32;
            let mut here = Some(start);
            while let Some(cell) = here {
                if marks[cell] == mark {
                    return true;
                }
                if marks[cell] != UNMARKED {
                    break;
                }
                marks[cell] = mark;
                here = self.below(cell);
            }
        }
        false
    }

    /// The non-null cells, each after all that flow into it. Cells on a ring
    /// or below one have no place in such an order and are left out.
    pub fn downstream_order(&self) -> Vec<usize> {
        let mut awaited = vec![0u8; self.cells()];
        for cell in self.solid() {
            if let Some(below) = self.below(cell) {
                awaited[below] += 1;
            }
        }
        let mut order: Vec<usize> = self.solid().filter(|&cell| awaited[cell] == 0).collect();
        let mut next = 0;
        while let Some(&cell) = order.get(next) {
            next += 1;
            if let Some(below) = self.below(cell) {
                awaited[below] -= 1;
                if awaited[below] == 0 {
                    order.push(below);
                }
            }
        }
        order
    }

    /// Accumulation on ground without rings: 0 at a null cell, else 1 plus the
    /// sum over inflowing neighbours.
    pub fn accumulation(&self) -> Vec<u32> {
        self.accumulation_without(|_| false)
    }

    /// The same sum with some cells left out of it as inflows.
    pub fn accumulation_without(&self, left_out: impl Fn(usize) -> bool) -> Vec<u32> {
        let mut sums = vec![0; self.cells()];
        for cell in self.downstream_order() {
            sums[cell] += 1;
            if let Some(below) = self.below(cell) {
                if !left_out(cell) {
                    sums[below] += sums[cell];
                }
            }
        }
        sums
    }
}

#[cfg(test)]
pub(crate) mod tests {
    use super::*;

    pub(crate) const CODES: [u8; 10] = [0, 1, 2, 4, 8, 16, 32, 64, 128, 255];

    /// Every grid of that many rows and columns.
    pub(crate) fn every_grid(rows: usize, cols: usize) -> impl Iterator<Item = Vec<u8>> {
        every_list(&CODES, rows * cols)
    }

    /// Every list of so many of these codes.
    pub(crate) fn every_list(codes: &'static [u8], count: usize) -> impl Iterator<Item = Vec<u8>> {
        (0..codes.len().pow(count as u32)).map(move |mut number| {
            (0..count)
                .map(|_| {
                    let code = codes[number % codes.len()];
                    number /= codes.len();
                    code
                })
                .collect()
        })
    }

    /// The equation of accumulation, word by word, in numbers wide enough.
    pub(crate) fn equation_holds(ground: &Ground, lent: &[u32]) -> bool {
        (0..ground.cells()).all(|cell| {
            let due: u64 = if ground.is_null(cell) {
                0
            } else {
                1 + ground.inflows(cell).map(|(_, inflow)| u64::from(lent[inflow])).sum::<u64>()
            };
            u64::from(lent[cell]) == due
        })
    }

    #[test]
    fn ten_codes() {
        let codes: Vec<u8> = (0..=255).filter(|&byte| is_code(byte)).collect();
        assert_eq!(codes, CODES);
    }

    #[test]
    fn each_code_goes_its_way() {
        // A middle cell of 3 × 3, all others flowing off to the north.
        for (way, to) in [5, 8, 7, 6, 3, 0, 1, 2].into_iter().enumerate() {
            let mut codes = [64; 9];
            codes[4] = 1 << way;
            let ground = Ground::new(3, 3, &codes);
            assert_eq!(ground.below(4), Some(to));
            assert_eq!(ground.neighbour(4, way), Some(to));
            let diagonal = [1, 3, 5, 7].contains(&way);
            assert_eq!(ground.step(4), Some(Step { to: to as u32, diagonal }));
        }
    }

    #[test]
    fn off_the_grid_and_to_null_a_walk_ends() {
        let codes = [1, 0, 1, 2];
        let ground = Ground::new(1, 4, &codes);
        assert_eq!(ground.below(0), None);
        assert_eq!(ground.below(2), Some(3));
        assert_eq!(ground.below(3), None);
    }

    #[test]
    fn a_walk_ends_at_a_pond_and_before_a_null_cell() {
        let walked = |codes: [u8; 4], from: usize| -> Vec<usize> {
            Ground::new(1, 4, &codes).walk(from).collect()
        };
        assert_eq!(walked([1, 1, 255, 1], 0), [0, 1, 2]);
        assert_eq!(walked([1, 1, 0, 1], 0), [0, 1]);
        assert_eq!(walked([1, 1, 255, 16], 3), [3, 2]);
        assert_eq!(walked([1, 1, 255, 16], 2), [2]);
    }

    #[test]
    fn a_pond_flows_nowhere_and_into_nobody() {
        for codes in every_grid(2, 2) {
            let ground = Ground::new(2, 2, &codes);
            for pond in (0..4).filter(|&cell| ground.is_pond(cell)) {
                assert!(!ground.is_null(pond));
                assert!(ground.solid().any(|cell| cell == pond));
                assert_eq!(ground.step(pond), None);
                assert_eq!(ground.below(pond), None);
                assert_eq!(ground.walk(pond).collect::<Vec<usize>>(), [pond]);
                for cell in ground.solid() {
                    assert!(ground.inflows(cell).all(|(_, inflow)| inflow != pond));
                }
            }
        }
    }

    #[test]
    fn eight_inflows_to_a_pond() {
        let codes = [2, 4, 8, 1, 255, 16, 128, 64, 32];
        let ground = Ground::new(3, 3, &codes);
        let inflows: Vec<(usize, usize)> = ground.inflows(4).collect();
        let cells = [5, 8, 7, 6, 3, 0, 1, 2];
        assert_eq!(inflows, cells.into_iter().enumerate().collect::<Vec<_>>());
        assert_eq!(ground.accumulation(), [1, 1, 1, 1, 9, 1, 1, 1, 1]);
        assert!(!ground.has_ring());
    }

    #[test]
    fn ponds_beside_ponds_and_beside_null_cells() {
        let sums = |rows, cols, codes: &[u8]| Ground::new(rows, cols, codes).accumulation();
        assert_eq!(sums(1, 1, &[255]), [1]);
        // No pond is an inflow of another, wherever it lies.
        assert_eq!(sums(3, 3, &[255; 9]), [1; 9]);
        assert_eq!(sums(4, 1, &[4, 255, 255, 64]), [1, 2, 2, 1]);
        // Nor does one flow off over null ground.
        assert_eq!(sums(1, 4, &[255, 0, 255, 16]), [1, 0, 2, 1]);
        assert_eq!(sums(3, 3, &[0, 0, 0, 0, 255, 0, 0, 0, 0]), [0, 0, 0, 0, 1, 0, 0, 0, 0]);
    }

    #[test]
    fn inflows_are_the_neighbours_that_flow_below() {
        for codes in every_grid(2, 2) {
            let ground = Ground::new(2, 2, &codes);
            for cell in ground.solid() {
                let mut inflows: Vec<usize> = ground.inflows(cell).map(|(_, c)| c).collect();
                inflows.sort();
                let feeding: Vec<usize> =
                    ground.solid().filter(|&other| ground.below(other) == Some(cell)).collect();
                assert_eq!(inflows, feeding);
            }
        }
    }

    #[test]
    fn rings_are_what_the_order_leaves_out() {
        for (rows, cols) in [(1, 4), (4, 1), (2, 2), (1, 1)] {
            for codes in every_grid(rows, cols) {
                let ground = Ground::new(rows, cols, &codes);
                let ordered = ground.downstream_order().len();
                assert_eq!(ground.has_ring(), ordered < ground.solid().count());
            }
        }
    }

    #[test]
    fn accumulation_alone_solves_the_equation() {
        for (rows, cols) in [(1, 3), (3, 1)] {
            for codes in every_grid(rows, cols) {
                let ground = Ground::new(rows, cols, &codes);
                for number in 0..5u32.pow(3) {
                    let lent = [number % 5, number / 5 % 5, number / 25];
                    let solves = !ground.has_ring() && ground.accumulation() == lent;
                    assert_eq!(equation_holds(&ground, &lent), solves);
                }
            }
        }
        for codes in every_grid(2, 2) {
            let ground = Ground::new(2, 2, &codes);
            let accumulation = ground.accumulation();
            assert_eq!(equation_holds(&ground, &accumulation), !ground.has_ring());
        }
    }

    #[test]
    fn accumulation_counts_the_walks_through_a_cell() {
        for codes in every_grid(2, 2) {
            let ground = Ground::new(2, 2, &codes);
            if ground.has_ring() {
                continue;
            }
            let mut through = vec![0; 4];
            for start in ground.solid() {
                ground.walk(start).for_each(|cell| through[cell] += 1);
            }
            assert_eq!(ground.accumulation(), through);
        }
    }
}
