//! Trees grown from their mouths, and a tree bent to a ring.

use second_reading::ground::{NULL, POND};
use second_reading::random::Random;

use super::grid::{back, Grid};

/// Trees grown at random from a few cells whose walks end; at times many of
/// these are ponds, and lie anywhere.
pub fn forest(rows: usize, cols: usize, random: &mut Random) -> Grid {
    let mut grid = Grid::null("forest", rows, cols);
    let cells = grid.cells();
    let one_in = random.pick(&[4, 15, usize::MAX]);
    let null: Vec<bool> = (0..cells).map(|_| random.one_in(one_in)).collect();
    let roots = random.between(1, 1 + cells / 40);
    let ponds = random.one_in(3);
    let mut grown = Vec::new();
    for _ in 0..4 * roots {
        let cell = random.below(cells);
        let mut ends = grid.ends(cell, &null);
        if ponds {
            ends.push(POND);
        }
        if !null[cell] && grid.codes[cell] == 0 && !ends.is_empty() && grown.len() < roots {
            grid.codes[cell] = random.pick(&ends);
            grown.push(cell);
        }
    }
    let long = random.one_in(2);
    grow(&mut grid, grown, &null, long, random);
    grid
}

/// One tree over the whole grid, mostly a long one, from a mouth at the edge or
/// a pond anywhere. At times one cell is null, or a pond.
pub fn tree(rows: usize, cols: usize, random: &mut Random) -> Grid {
    let mut grid = Grid::null("tree", rows, cols);
    let cells = grid.cells();
    let null = vec![false; cells];
    let mouth = random.below(cells);
    let mut ends = grid.ends(mouth, &null);
    ends.push(POND);
    grid.codes[mouth] = random.pick(&ends);
    let long = !random.one_in(4);
    grow(&mut grid, vec![mouth], &null, long, random);
    if random.one_in(3) {
        grid.codes[random.below(cells)] = random.pick(&[NULL, POND]);
    }
    grid
}

/// Grows trees at random from the cells that are grown, over all that are not
/// null. The later ones are taken more often where trees are to become long.
fn grow(grid: &mut Grid, mut grown: Vec<usize>, null: &[bool], long: bool, random: &mut Random) {
    while !grown.is_empty() {
        let at =
            if long && !random.one_in(8) { grown.len() - 1 } else { random.below(grown.len()) };
        let cell = grown[at];
        let free: Vec<(usize, usize)> = (0..8)
            .filter_map(|way| Some((way, grid.neighbour(cell, way)?)))
            .filter(|&(_, next)| !null[next] && grid.codes[next] == 0)
            .collect();
        if free.is_empty() {
            grown.swap_remove(at);
            continue;
        }
        let (way, next) = random.pick(&free);
        grid.codes[next] = back(way);
        grown.push(next);
    }
}

/// A forest with one cell turned back to a neighbour above it: one ring, short
/// or long.
pub fn one_ring(rows: usize, cols: usize, random: &mut Random) -> Grid {
    let mut grid = forest(rows, cols, random);
    grid.kind = "one ring";
    let solid: Vec<usize> = grid.ground().solid().collect();
    for _ in 0..solid.len().min(20) {
        let turned = random.pick(&solid);
        let ground = grid.ground();
        let above = |cell: usize| ground.walk(cell).any(|below| below == turned);
        let ways: Vec<usize> = (0..8)
            .filter(|&way| {
                ground.neighbour(turned, way).is_some_and(|c| !ground.is_null(c) && above(c))
            })
            .collect();
        if !ways.is_empty() {
            grid.codes[turned] = 1 << random.pick(&ways);
            break;
        }
    }
    grid
}
