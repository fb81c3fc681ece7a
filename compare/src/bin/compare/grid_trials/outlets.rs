//! Lists of outlets.

use second_reading::random::Random;

use super::case::Case;
use crate::calls::Comparison;
use crate::grounds::{self, Grid};

/// A list of outlets of a random kind on a ring-free grid that has solid
/// cells.
pub fn outlets_for(grid: &Grid, accumulation: &[u32], random: &mut Random) -> Vec<u32> {
    let ground = grid.ground();
    let mut solid: Vec<u32> = ground.solid().map(|cell| cell as u32).collect();
    let mouth = *solid.iter().max_by_key(|&&cell| accumulation[cell as usize]).expect("solid");
    let mut ponds = solid.clone();
    ponds.retain(|&cell| ground.is_pond(cell as usize));
    match random.below(8) {
        0 if !ponds.is_empty() => {
            // Ponds alone, all or some.
            random.shuffle(&mut ponds);
            ponds.truncate(random.pick(&[1, 1, 2, 9, 256]));
            ponds
        }
        0 | 1 => vec![mouth],
        2 => vec![random.pick(&solid)],
        3 => {
            // Several on one walk, in any order.
            let start = random.pick(&solid) as usize;
            let mut walk: Vec<u32> = ground.walk(start).map(|cell| cell as u32).collect();
            random.shuffle(&mut walk);
            walk.truncate(random.between(1, 6));
            walk
        }
        4 => {
            // A cell and all that flow into it.
            let cell = if random.one_in(2) { mouth } else { random.pick(&solid) };
            let inflows = ground.inflows(cell as usize).map(|(_, inflow)| inflow as u32);
            let mut list: Vec<u32> = inflows.chain([cell]).collect();
            random.shuffle(&mut list);
            list
        }
        5 => {
            random.shuffle(&mut solid);
            solid.truncate(if random.one_in(2) { 256 } else { random.between(10, 255) });
            solid
        }
        _ => {
            random.shuffle(&mut solid);
            solid.truncate(random.between(2, 9));
            if random.one_in(2) && !solid.contains(&mouth) {
                solid.push(mouth);
            }
            solid
        }
    }
}

/// Lists of 255 to 258 outlets, sound and with a null, far or repeated one at
/// either end.
pub fn outlet_edges(comparison: &mut Comparison, random: &mut Random) {
    for kind in [grounds::slope, grounds::valleys, grounds::serpent, grounds::pools] {
        let mut grid = kind(20, 20, random);
        grid.codes[399] = 0;
        let accumulation = grid.ground().accumulation();
        let mut solid: Vec<u32> = grid.ground().solid().map(|cell| cell as u32).collect();
        random.shuffle(&mut solid);
        for count in [255, 256, 257, 258] {
            comparison.about(format!("{} outlets on {}", count, grid.kind));
            let outlets = &solid[..count];
            for place in [0, 254, 255, 256, 257] {
                let case = Case::new(&grid, &accumulation, outlets, place, outlets[0], random);
                case.every_entry(comparison, random);
                let start = outlets[place.min(count - 1)];
                let case = Case::new(&grid, &accumulation, outlets, place, start, random);
                case.every_entry(comparison, random);
            }
            for place in [0, count - 1] {
                for odd in [399, 400, u32::MAX, outlets[count / 2], outlets[count - 1 - place]] {
                    let case = Case::new(&grid, &accumulation, outlets, 1, outlets[1], random);
                    let mut outlets = outlets.to_vec();
                    outlets[place] = odd;
                    Case { outlets, ..case }.every_entry(comparison, random);
                }
            }
            // A repeated outlet before a null one: 16 is judged of the whole
            // list before 17 of any.
            let case = Case::new(&grid, &accumulation, outlets, 1, outlets[1], random);
            let mut outlets = outlets.to_vec();
            outlets[1] = outlets[0];
            outlets[count - 1] = 399;
            Case { outlets, ..case }.every_entry(comparison, random);
        }
    }
}
