//! The grounds that are measured. Each has one mouth, to which all its cells flow.

use second_reading::ground::{Ground, NEIGHBOURS};
use second_reading::random::Random;

pub struct Field {
    pub rows: usize,
    pub cols: usize,
    pub codes: Vec<u8>,
}

pub type Kind = (&'static str, fn(usize) -> Field);

pub const KINDS: [Kind; 4] =
    [("fractal", fractal), ("comb", comb), ("serpent", serpent), ("nulls", nulls)];

/// The seed of every ground, and of the outlets on it.
pub const SEED: u64 = 0x6A69_6E78_6261_6E79;

impl Field {
    pub fn cells(&self) -> usize {
        self.rows * self.cols
    }

    pub fn ground(&self) -> Ground<'_> {
        Ground::new(self.rows, self.cols, &self.codes)
    }

    fn null(side: usize) -> Field {
        Field { rows: side, cols: side, codes: vec![0; side * side] }
    }

    fn by_code(side: usize, code: impl Fn(usize, usize) -> u8) -> Field {
        let codes = (0..side * side).map(|cell| code(cell / side, cell % side)).collect();
        Field { rows: side, cols: side, codes }
    }

    /// The cells that flow to an outlet, on the smallest grid that holds them and with all others
    /// null; and the outlet there.
    pub fn cut(&self, outlet: u32) -> (Field, u32) {
        let ground = self.ground();
        let mut valley = vec![outlet as usize];
        let mut next = 0;
        while let Some(&cell) = valley.get(next) {
            valley.extend(ground.inflows(cell).map(|(_, inflow)| inflow));
            next += 1;
        }
        let rows = valley.iter().map(|cell| cell / self.cols);
        let cols = valley.iter().map(|cell| cell % self.cols);
        let (top, left) = (rows.clone().min().unwrap(), cols.clone().min().unwrap());
        let (bottom, right) = (rows.max().unwrap(), cols.max().unwrap());
        let (rows, cols) = (bottom - top + 1, right - left + 1);
        let place = |cell: usize| (cell / self.cols - top) * cols + cell % self.cols - left;
        let mut codes = vec![0; rows * cols];
        for cell in valley {
            codes[place(cell)] = self.codes[cell];
        }
        (Field { rows, cols, codes }, place(outlet as usize) as u32)
    }
}

/// Rows that flow to a column in the middle, which flows south.
pub fn comb(side: usize) -> Field {
    Field::by_code(side, |_, col| match col.cmp(&(side / 2)) {
        std::cmp::Ordering::Less => 1,
        std::cmp::Ordering::Equal => 4,
        std::cmp::Ordering::Greater => 16,
    })
}

/// One walk through all cells, row by row.
pub fn serpent(side: usize) -> Field {
    Field::by_code(side, |row, col| match (row % 2, col) {
        (0, col) if col + 1 == side => 4,
        (0, _) => 1,
        (_, 0) => 4,
        _ => 16,
    })
}

/// Heights by noise of halving reach on a slope to the south, flooded from the lowest cell of the
/// edge.
pub fn fractal(side: usize) -> Field {
    flooded(side, &vec![false; side * side])
}

/// The same with one cell in 20 null. Cells that are cut off are null too.
pub fn nulls(side: usize) -> Field {
    let mut random = Random::new(SEED);
    let null: Vec<bool> = (0..side * side).map(|_| random.below(20) == 0).collect();
    flooded(side, &null)
}

const LEVELS: usize = 1 << 16;

/// How much lower the south is than the north, beside noise of up to 1 at the greatest reach. It
/// leaves hollows, but few.
const SLOPE: f32 = 4.0;

fn flooded(side: usize, null: &[bool]) -> Field {
    let mut field = Field::null(side);
    let levels = levels(side);
    let edge = |cell: usize| {
        let (row, col) = (cell / side, cell % side);
        row == 0 || col == 0 || row + 1 == side || col + 1 == side
    };
    let mouth = (0..side * side)
        .filter(|&cell| edge(cell) && !null[cell])
        .min_by_key(|&cell| levels[cell])
        .expect("ground at the edge");
    let off = (0..8).find(|&way| field.ground().neighbour(mouth, way).is_none());
    field.codes[mouth] = 1 << off.expect("a way off the grid");
    let mut waiting = vec![Vec::new(); LEVELS];
    waiting[levels[mouth]].push(mouth as u32);
    for level in 0..LEVELS {
        let mut next = 0;
        while let Some(&cell) = waiting[level].get(next) {
            next += 1;
            let (row, col) = ((cell as usize / side) as isize, (cell as usize % side) as isize);
            for (way, (down, right)) in NEIGHBOURS.into_iter().enumerate() {
                let (r, c) = (row + down, col + right);
                if r < 0 || c < 0 || r >= side as isize || c >= side as isize {
                    continue;
                }
                let above = r as usize * side + c as usize;
                if !null[above] && field.codes[above] == 0 {
                    field.codes[above] = 1 << ((way + 4) % 8);
                    waiting[levels[above].max(level)].push(above as u32);
                }
            }
        }
        waiting[level] = Vec::new();
    }
    field
}

fn levels(side: usize) -> Vec<usize> {
    let mut random = Random::new(SEED);
    let slope = |cell: usize| SLOPE * (side - cell / side) as f32 / side as f32;
    let mut heights: Vec<f32> = (0..side * side).map(slope).collect();
    let (mut reach, mut strength) = (side / 2, 1f32);
    while reach >= 1 {
        let across = side / reach + 2;
        let knots: Vec<f32> = (0..across * across).map(|_| random.part() * strength).collect();
        for (row, heights) in heights.chunks_mut(side).enumerate() {
            let upper = &knots[row / reach * across..];
            let lower = &upper[across..];
            let y = (row % reach) as f32 / reach as f32;
            for (col, height) in heights.iter_mut().enumerate() {
                let knot = col / reach;
                let x = (col % reach) as f32 / reach as f32;
                *height += (upper[knot] * (1.0 - x) + upper[knot + 1] * x) * (1.0 - y)
                    + (lower[knot] * (1.0 - x) + lower[knot + 1] * x) * y;
            }
        }
        reach /= 2;
        strength *= 0.6;
    }
    let most = heights.iter().copied().fold(0f32, f32::max);
    heights.iter().map(|height| (height / most * (LEVELS - 1) as f32) as usize).collect()
}
