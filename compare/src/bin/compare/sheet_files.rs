//! Sheets, sound and damaged.

use second_reading::sheet::sheet;

use crate::grounds::{self, Grid};
use second_reading::random::Random;

/// A grid with a list of outlets. Null and repeated outlets are among them at
/// times, and rings.
pub fn any_catchment(most: usize, random: &mut Random) -> (Grid, Vec<u32>) {
    let rows = random.between(1, most);
    let cols = random.between(1, most);
    let grid = grounds::any(rows, cols, random);
    let solid: Vec<u32> = grid.ground().solid().map(|cell| cell as u32).collect();
    let count = random.pick(&[0, 1, 1, 2, 3, 8, 40, 255, 256]);
    let mut outlets: Vec<u32> = if random.one_in(4) || solid.is_empty() {
        (0..count).map(|_| random.below(grid.cells()) as u32).collect()
    } else {
        let mut cells = solid.clone();
        random.shuffle(&mut cells);
        cells.truncate(count);
        cells
    };
    if random.one_in(12) && !outlets.is_empty() {
        outlets.push(outlets[0]);
        outlets.truncate(256);
    }
    (grid, outlets)
}

pub fn any_sheet(most: usize, random: &mut Random) -> Vec<u8> {
    let (grid, outlets) = any_catchment(most, random);
    sheet(grid.rows, grid.cols, &grid.codes, &outlets)
}

/// Changes a file a little: bytes changed, cut, doubled, added or swapped.
pub fn worsen(file: &mut Vec<u8>, random: &mut Random) {
    for _ in 0..random.between(1, 2) {
        let at = random.below(file.len().max(1));
        if file.is_empty() {
            return;
        }
        match random.below(9) {
            0 => file.truncate(at),
            1 => file[at] = random.bits() as u8,
            2 => file[at] ^= 1 << random.below(8),
            3 => {
                file.remove(at);
            }
            4 => file.insert(at, random.bits() as u8),
            5 => file.push(random.pick(&[0, 0x45, 0x4F, 0x52])),
            6 => {
                let end = (at + random.between(1, 12)).min(file.len());
                let part = file[at..end].to_vec();
                file.splice(at..at, part);
            }
            7 => {
                let end = (at + random.between(1, 12)).min(file.len());
                file.drain(at..end);
            }
            _ => {
                let other = random.below(file.len());
                file.swap(at, other);
            }
        }
    }
}

/// Sheets at the edges of what is allowed, all of null cells, of cells that flow
/// off to the west, or of ponds, by rows, columns and number of outlets.
pub fn edges() -> Vec<Vec<u8>> {
    let mut files = Vec::new();
    for code in [0, 16, 255] {
        for (rows, cols) in [(64, 64), (64, 1), (1, 64), (65, 1), (1, 65), (65, 64), (64, 65)] {
            for count in [0, 1, 2, 255, 256, 257, 300] {
                let cells = (rows * cols) as u32;
                let outlets: Vec<u32> = (0..count).map(|at| at % cells).collect();
                files.push(sheet(rows, cols, &vec![code; rows * cols], &outlets));
            }
        }
    }
    // The outlet after the 256th outside the grid, cut, or not a record; the
    // file going on after the end.
    let full = sheet(20, 20, &[16; 400], &(0..257).collect::<Vec<u32>>());
    let last = full.len() - 8;
    for (at, byte) in [(last, 0x4E), (last + 2, 20), (last + 3, 1), (last + 4, 20), (last + 5, 1)] {
        let mut file = full.clone();
        file[at] = byte;
        files.push(file);
    }
    files.extend((last..full.len()).map(|length| full[..length].to_vec()));
    let short = sheet(2, 3, &[16; 6], &[0, 5]);
    for more in [1, 2, 6, 5000, 100_000] {
        let mut file = short.clone();
        file.resize(short.len() + more, 0);
        files.push(file);
    }
    files.push([short.clone(), short.clone()].concat());
    files.push(sheet(2, 3, &[16; 6], &[0; 20_000]));
    files.push(Vec::new());
    // Sides that are right only in one of their bytes.
    for (low, high) in [(0, 0), (0, 1), (2, 1), (0, 255), (64, 0), (65, 0), (255, 255), (64, 1)] {
        for at in [2, 4] {
            let mut file = short.clone();
            file[at] = low;
            file[at + 1] = high;
            files.push(file);
        }
    }
    // Records in another order.
    let header = &short[..6];
    let rows = [&short[6..13], &short[13..20]];
    let outlets = &short[20..32];
    let end = &short[32..];
    files.push([header, rows[1], rows[0], outlets, end].concat());
    files.push([header, rows[0], outlets, rows[1], end].concat());
    files.push([header, outlets, rows[0], rows[1], end].concat());
    files.push([header, rows[0], rows[1], end, outlets].concat());
    files.push([header, rows[0], rows[1], rows[1], end].concat());
    files.push([header, rows[0], rows[1], header, end].concat());
    files.push([header, rows[0], end].concat());
    files.push([header, header, rows[0], rows[1], end].concat());
    files.push([rows[0], rows[1], end].concat());
    files
}
