//! Reading and writing sheets.

use second_reading::sheet::sheet;

use crate::calls::Comparison;
use crate::sheet_files::{any_catchment, any_sheet, edges, worsen};
use second_reading::random::Random;

pub fn run(comparison: &mut Comparison, random: &mut Random) {
    small_sheets(comparison);
    edge_sheets(comparison);
    many_sheets(comparison, random);
    written(comparison, random);
}

/// A small sheet cut at every length, and with every single byte changed to
/// every other. Each change is refused or makes another sound sheet; both are
/// counted.
fn small_sheets(comparison: &mut Comparison) {
    let sheets = [
        sheet(1, 4, &[1, 4, 16, 16], &[1]),
        sheet(2, 3, &[0, 1, 2, 255, 8, 16], &[5, 0]),
        sheet(2, 1, &[64, 128], &[]),
    ];
    for file in sheets {
        comparison.about("a small sheet".to_string());
        for length in 0..=file.len() {
            comparison.read_sheet(&file[..length], 4096, 256);
        }
        let (mut refused, mut another) = (0, 0);
        for at in 0..file.len() {
            for byte in 0..=255 {
                let mut damaged = file.clone();
                damaged[at] = byte;
                let number = comparison.read_sheet(&damaged, 6, 256);
                match number {
                    _ if damaged == file => (),
                    0 => another += 1,
                    _ => refused += 1,
                }
            }
        }
        println!(
            "{} bytes of a small sheet, each changed to every other: {refused} refused, \
             {another} read as another sheet",
            file.len()
        );
        for more in 0..=255 {
            let mut longer = file.clone();
            longer.push(more);
            comparison.read_sheet(&longer, 6, 256);
        }
    }
}

fn edge_sheets(comparison: &mut Comparison) {
    comparison.about("a sheet at the edges".to_string());
    for file in edges() {
        for codes_room in [0, 1, 5, 6, 63, 64, 65, 399, 400, 4095, 4096, 4097, 4160] {
            for outlets_room in [0, 1, 2, 255, 256, 257, 300] {
                if codes_room < 4096 && outlets_room != 256 && file.len() > 1000 {
                    continue;
                }
                comparison.read_sheet(&file, codes_room, outlets_room);
            }
        }
    }
}

/// Sheets of all kinds, sound, damaged, and with rooms around what is needed.
fn many_sheets(comparison: &mut Comparison, random: &mut Random) {
    for turn in 0..6000 {
        comparison.about(format!("sheet {turn}"));
        let most = if turn % 10 == 0 { 64 } else { 8 };
        let mut file = any_sheet(most, random);
        let cells = usize::from(file[2]) * usize::from(file[4]);
        let room = random.pick(&[cells, cells, cells + 3, 4096, cells - 1, 0]);
        let outlets_room = random.pick(&[256, 256, 256, 257, 400, 255, 0]);
        comparison.read_sheet(&file, room, outlets_room);
        worsen(&mut file, random);
        comparison.read_sheet(&file, room, outlets_room);
        comparison.read_sheet(&file, 4096, 256);
    }
}

/// Writing with room at, below and above what is needed; sides, codes and
/// outlets damaged one at a time and together.
fn written(comparison: &mut Comparison, random: &mut Random) {
    const SIDES: [usize; 9] =
        [0, 65, 66, 128, 256, (1 << 16) + 1, (1 << 32) + 1, 1 << 63, usize::MAX];
    for turn in 0..4000 {
        comparison.about(format!("written sheet {turn}"));
        let most = if turn % 10 == 0 { 64 } else { 8 };
        let (grid, outlets) = any_catchment(most, random);
        let (rows, cols) = (grid.rows, grid.cols);
        let need = sheet(rows, cols, &grid.codes, &outlets).len();
        for room in [need, need - 1, need + 9, need / 2, 0] {
            comparison.write_sheet(rows, cols, &grid.codes, &outlets, room);
        }
        for _ in 0..6 {
            let (mut rows, mut cols, mut room) = (rows, cols, need);
            let mut codes = grid.codes.clone();
            let mut outlets = outlets.clone();
            for _ in 0..random.between(1, 3) {
                let cells = grid.codes.len() as u32;
                match random.below(10) {
                    0 => rows = random.pick(&SIDES),
                    1 => cols = random.pick(&SIDES),
                    2 => codes.truncate(random.below(codes.len().max(1))),
                    3 => codes.extend([3, 254, 0]),
                    4 if !codes.is_empty() => {
                        let at = random.below(codes.len());
                        codes[at] = random.pick(&[3, 253, 254, 129, 7]);
                    }
                    5 => {
                        let count = random.pick(&[256, 257, 258, 400]);
                        outlets = (0..count).map(|at| at % cells).collect();
                    }
                    6 if !outlets.is_empty() => {
                        let at = random.below(outlets.len());
                        let far = [cells, cells + 1, 1 << 16, 1 << 31, u32::MAX];
                        outlets[at] = random.pick(&far);
                    }
                    7 => room = random.pick(&[0, need - 1, need / 2]),
                    8 => room += random.between(1, 2000),
                    _ => outlets.push(random.below(grid.codes.len()) as u32),
                }
            }
            comparison.write_sheet(rows, cols, &codes, &outlets, room);
        }
    }
    comparison.about("a written sheet at the edges".to_string());
    for (rows, cols) in [(64, 64), (65, 64), (64, 65), (1, 64), (64, 1)] {
        for count in [0, 1, 255, 256, 257] {
            let codes = vec![128; rows * cols];
            let outlets: Vec<u32> = (0..count).map(|at| at * 7 % (rows * cols) as u32).collect();
            let need = sheet(rows, cols, &codes, &outlets).len();
            for room in [need - 1, need, need + 1] {
                comparison.write_sheet(rows, cols, &codes, &outlets, room);
            }
        }
    }
}
