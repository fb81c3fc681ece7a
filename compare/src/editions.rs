//! The editions of the standard: at which cells of a subwatershed a path may
//! start.

use crate::subwatershed::{Division, Meeting};

#[derive(Clone, Copy, Debug, PartialEq, Eq)]
pub enum Edition {
    /// A path may start at any cell.
    First,
    /// A path may start on the divide only.
    Second,
}

impl Edition {
    /// The edition of that number, if it is 1 or 2.
    pub fn numbered(number: u32) -> Option<Edition> {
        match number {
            1 => Some(Edition::First),
            2 => Some(Edition::Second),
            _ => None,
        }
    }
}

/// The cells of a ground at which paths may start by an edition.
pub enum Starts {
    Anywhere,
    /// Whether each cell is on the divide.
    OnDivide(Vec<bool>),
}

impl Starts {
    /// Is the cell's walk among those that are compared?
    pub fn has(&self, cell: usize) -> bool {
        match self {
            Starts::Anywhere => true,
            Starts::OnDivide(divide) => divide[cell],
        }
    }

    /// Is a length met at the cell, which has that subaccumulation, when a search
    /// visits it? By edition 1 that is so at headwaters, by edition 2 at divide
    /// cells, headwaters or not.
    pub fn met_at(&self, cell: usize, subaccumulation: u32) -> bool {
        match self {
            Starts::Anywhere => subaccumulation == 1,
            Starts::OnDivide(divide) => divide[cell],
        }
    }
}

impl Division<'_> {
    pub fn starts(&self, edition: Edition) -> Starts {
        match edition {
            Edition::First => Starts::Anywhere,
            Edition::Second => Starts::OnDivide(self.divide()),
        }
    }

    /// Whether each cell of a subwatershed is on its divide: among its eight
    /// neighbours is one off the grid, null, or outside the subwatershed, as an
    /// upper outlet and its cells are. Every cell is walked from, and a
    /// neighbour is inside exactly if it comes to the same outlet first.
    fn divide(&self) -> Vec<bool> {
        let ground = self.ground();
        let mut comes_to = vec![None; ground.cells()];
        for &(cell, Meeting { outlet, .. }) in self.meetings() {
            comes_to[cell] = Some(outlet as u32);
        }
        let is_inside = |cell: usize, way: usize| {
            ground.neighbour(cell, way).is_some_and(|next| comes_to[next] == comes_to[cell])
        };
        let mut divide = vec![false; ground.cells()];
        for &(cell, _) in self.meetings() {
            divide[cell] = !(0..8).all(|way| is_inside(cell, way));
        }
        divide
    }
}

#[cfg(test)]
mod tests {
    use std::cell::Cell;

    use super::*;
    use crate::flow_lengths::tests::many_divisions;
    use crate::ground::{Ground, NEIGHBOURS, NULL, POND};
    use crate::random::Random;

    #[test]
    fn two_editions() {
        assert_eq!(Edition::numbered(1), Some(Edition::First));
        assert_eq!(Edition::numbered(2), Some(Edition::Second));
        for number in [0, 3, 4, 257, 258, 1 << 16 | 1, 1 << 31 | 2, u32::MAX] {
            assert_eq!(Edition::numbered(number), None);
        }
    }

    /// Many divisions, and fans: cells flow to a pond in the middle, which is an outlet, but one is
    /// null or a pond as well. At times another is an outlet, too.
    fn divisions_and_fans(judge: impl Fn(&Division, &[u32])) {
        many_divisions(&judge);
        let mut random = Random::new(7);
        for _ in 0..2000 {
            let (rows, cols) = (random.between(3, 8), random.between(3, 8));
            let middle = random.below(rows * cols);
            let towards = |from: usize, to: usize| (to as isize - from as isize).signum();
            let step =
                |cell| (towards(cell / cols, middle / cols), towards(cell % cols, middle % cols));
            let mut codes: Vec<u8> = (0..rows * cols)
                .map(|cell| NEIGHBOURS.iter().position(|&change| change == step(cell)))
                .map(|way| way.map_or(POND, |way| 1 << way))
                .collect();
            codes[random.below(rows * cols)] = random.pick(&[NULL, POND]);
            codes[middle] = POND;
            let other = random.below(rows * cols);
            let alone = random.one_in(2) || other == middle || codes[other] == NULL;
            let outlets = [middle as u32, other as u32];
            let outlets = if alone { &outlets[..1] } else { &outlets };
            judge(&Division::new(Ground::new(rows, cols, &codes), outlets), outlets);
        }
    }

    /// On the divide in the words of its definition, each neighbour walked from.
    fn is_on_divide(division: &Division, cell: usize, outlet: usize) -> bool {
        (0..8).any(|way| match division.ground().neighbour(cell, way) {
            None => true,
            Some(next) => division.ground().is_null(next) || !division.belongs(next, outlet),
        })
    }

    #[test]
    fn the_divide_is_that_of_the_definition() {
        let inner = Cell::new(0);
        divisions_and_fans(|division, outlets| {
            let divide = division.divide();
            let mut rest = divide.clone();
            for outlet in outlets.iter().map(|&outlet| outlet as usize) {
                for cell in (0..divide.len()).filter(|&cell| division.belongs(cell, outlet)) {
                    assert_eq!(divide[cell], is_on_divide(division, cell, outlet));
                    inner.set(inner.get() + u32::from(!divide[cell]));
                    rest[cell] = false;
                }
            }
            assert!(rest.iter().all(|&on_divide| !on_divide), "none beyond the subwatersheds");
        });
        assert!(inner.get() > 10_000, "{}", inner.get());
    }

    /// To the north of a subwatershed's first row lies nothing of it, nor to the south of its last.
    #[test]
    fn cells_of_the_first_and_of_the_last_row_are_on_the_divide() {
        divisions_and_fans(|division, outlets| {
            let divide = division.divide();
            for outlet in outlets.iter().map(|&outlet| outlet as usize) {
                let mut inside = (0..divide.len()).filter(|&cell| division.belongs(cell, outlet));
                let first = inside.next().expect("the outlet");
                assert!(divide[first] && divide[inside.last().unwrap_or(first)]);
            }
        });
    }

    /// The cells on the divide, by number.
    fn divide(rows: usize, cols: usize, codes: &[u8], outlets: &[u32]) -> Vec<usize> {
        let divide = Division::new(Ground::new(rows, cols, codes), outlets).divide();
        (0..codes.len()).filter(|&cell| divide[cell]).collect()
    }

    #[test]
    fn a_middle_cell_has_all_its_neighbours_inside() {
        let border = [0, 1, 2, 3, 5, 6, 7, 8];
        // A headwater, and a pond that is the outlet.
        assert_eq!(divide(3, 3, &[1, 1, 64, 64, 1, 4, 64, 16, 16], &[2]), border);
        assert_eq!(divide(3, 3, &[2, 4, 8, 1, 255, 16, 128, 64, 32], &[4]), border);
    }

    #[test]
    fn one_neighbour_outside_is_enough() {
        // Around the middle go the walks to 2. A corner that they leave out is null, flows off, or
        // is a pond, an outlet or none.
        for (corner, outlets) in [(0, &[2][..]), (64, &[2]), (64, &[2, 0]), (255, &[2])] {
            let codes = [corner, 1, 64, 128, 1, 4, 64, 16, 16];
            assert!(divide(3, 3, &codes, outlets).contains(&4));
        }
        // The middle itself is an upper outlet: all are beside it.
        assert_eq!(divide(3, 3, &[1, 1, 64, 64, 1, 4, 64, 16, 16], &[2, 4]).len(), 9);
    }

    #[test]
    fn what_is_of_no_subwatershed_is_on_no_divide() {
        assert_eq!(divide(1, 7, &[1, 1, 1, 0, 255, 16, 16], &[1]), [0, 1]);
    }
}
