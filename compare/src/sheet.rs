//! The sheet file: header, all rows, outlets, end.
//!
//! Each record follows a two-byte mark; numbers have 16 bits, low byte first.

use crate::entries::MOST_OUTLETS;
use crate::ground::is_code;
use crate::{check, Refusal};

/// Sheets have sides of 1 to this many cells.
pub const MOST_SHEET_SIDE: usize = 64;

const HEADER: [u8; 2] = [0x44, 0x38];
const ROW: [u8; 2] = [0x52, 0x57];
const OUTLET: [u8; 2] = [0x4F, 0x54];
const END: [u8; 2] = [0x45, 0x4E];

/// What reading hands back. In memory an outlet is its cell number.
#[derive(Clone, Copy, Debug, PartialEq, Eq)]
pub struct Shape {
    pub rows: usize,
    pub cols: usize,
    pub outlets: usize,
}

/// The part of a file that is still to be read.
struct Unread<'a>(&'a [u8]);

impl<'a> Unread<'a> {
    /// What follows the mark, if the next record bears it and is whole, with
    /// `length` bytes after the mark.
    fn record(&mut self, mark: [u8; 2], length: usize) -> Option<&'a [u8]> {
        let marked = self.0.strip_prefix(&mark)?;
        let (record, rest) = marked.split_at_checked(length)?;
        self.0 = rest;
        Some(record)
    }

    /// A record of two numbers.
    fn two_numbers(&mut self, mark: [u8; 2]) -> Option<(usize, usize)> {
        let record = self.record(mark, 4)?;
        Some((number(&record[..2]), number(&record[2..])))
    }
}

fn number(bytes: &[u8]) -> usize {
    usize::from(bytes[0]) + 256 * usize::from(bytes[1])
}

/// Reading a sheet (checks 1 to 9), forward through the file.
///
/// Accepted, the first R × C places of the code grid and as many places of the
/// outlet list as the sheet has outlets hold what was read. Null and repeated
/// outlets are not judged here.
pub fn read(file: &[u8], codes: &mut [u8], outlets: &mut [u32]) -> Result<Shape, Refusal> {
    let mut unread = Unread(file);

    let (rows, cols) = unread.two_numbers(HEADER).ok_or(Refusal(1))?;
    check(2, sides_fit(rows, cols))?;
    check(3, codes.len() >= rows * cols && outlets.len() >= MOST_OUTLETS)?;

    let mut read_codes = Vec::new();
    for row in 0..rows {
        let record = unread.record(ROW, 2 + cols).ok_or(Refusal(4))?;
        let (row_number, row_codes) = record.split_at(2);
        check(4, number(row_number) == row)?;
        check(5, row_codes.iter().all(|&byte| is_code(byte)))?;
        read_codes.extend_from_slice(row_codes);
    }

    let mut read_outlets = Vec::new();
    while let Some((row, col)) = unread.two_numbers(OUTLET) {
        check(7, row < rows && col < cols)?;
        check(8, read_outlets.len() < MOST_OUTLETS)?;
        read_outlets.push((row * cols + col) as u32);
    }
    unread.record(END, 0).ok_or(Refusal(6))?;
    check(9, unread.0.is_empty())?;

    codes[..read_codes.len()].copy_from_slice(&read_codes);
    outlets[..read_outlets.len()].copy_from_slice(&read_outlets);
    Ok(Shape { rows, cols, outlets: read_outlets.len() })
}

/// Writing a sheet (checks 2, 3 for codes only, 5, 8, 7, then 23).
///
/// Accepted, the first bytes of the lent file hold the sheet, and its length
/// is handed back. The first R × C codes are written; each outlet must be a
/// cell number below R × C, null and repeated ones included.
pub fn write(
    rows: usize,
    cols: usize,
    codes: &[u8],
    outlets: &[u32],
    file: &mut [u8],
) -> Result<usize, Refusal> {
    check(2, sides_fit(rows, cols))?;
    let cells = rows * cols;
    check(3, codes.len() >= cells)?;
    check(5, codes[..cells].iter().all(|&byte| is_code(byte)))?;
    check(8, outlets.len() <= MOST_OUTLETS)?;
    check(7, outlets.iter().all(|&outlet| (outlet as usize) < cells))?;
    let sheet = sheet(rows, cols, codes, outlets);
    check(23, file.len() >= sheet.len())?;
    file[..sheet.len()].copy_from_slice(&sheet);
    Ok(sheet.len())
}

fn sides_fit(rows: usize, cols: usize) -> bool {
    let sides = 1..=MOST_SHEET_SIDE;
    sides.contains(&rows) && sides.contains(&cols)
}

/// The whole sheet of a grid and a list of outlets.
pub fn sheet(rows: usize, cols: usize, codes: &[u8], outlets: &[u32]) -> Vec<u8> {
    let two_bytes = |number: usize| (number as u16).to_le_bytes();
    let mut sheet = Vec::new();
    sheet.extend(HEADER);
    sheet.extend(two_bytes(rows));
    sheet.extend(two_bytes(cols));
    for (row, row_codes) in codes.chunks(cols).take(rows).enumerate() {
        sheet.extend(ROW);
        sheet.extend(two_bytes(row));
        sheet.extend(row_codes);
    }
    for &outlet in outlets {
        sheet.extend(OUTLET);
        sheet.extend(two_bytes(outlet as usize / cols));
        sheet.extend(two_bytes(outlet as usize % cols));
    }
    sheet.extend(END);
    sheet
}

#[cfg(test)]
mod tests {
    use super::*;

    /// 1 row, 4 columns, codes 1 4 16 16, outlet at 0 1.
    const EXAMPLE: [u8; 22] = [
        0x44, 0x38, 1, 0, 4, 0, 0x52, 0x57, 0, 0, 1, 4, 16, 16, 0x4F, 0x54, 0, 0, 1, 0, 0x45, 0x4E,
    ];

    fn number_of(file: &[u8]) -> u32 {
        let (mut codes, mut outlets) = ([7; 4096], [7; 256]);
        match read(file, &mut codes, &mut outlets) {
            Ok(_) => 0,
            Err(Refusal(number)) => {
                assert!(codes == [7; 4096] && outlets == [7; 256]);
                number
            }
        }
    }

    #[test]
    fn the_example_is_read_and_written() {
        let (mut codes, mut outlets) = ([9; 5], [9; 257]);
        let shape = read(&EXAMPLE, &mut codes, &mut outlets).unwrap();
        assert_eq!(shape, Shape { rows: 1, cols: 4, outlets: 1 });
        assert_eq!(codes, [1, 4, 16, 16, 9]);
        assert_eq!(outlets[..2], [1, 9]);
        let mut file = [9; 23];
        assert_eq!(write(1, 4, &codes, &[1], &mut file), Ok(22));
        assert_eq!(file[..22], EXAMPLE);
        assert_eq!(file[22], 9);
    }

    #[test]
    fn ponds_are_read_and_written() {
        let codes = [1, 255, 0, 255, 16, 255];
        let file = sheet(2, 3, &codes, &[1, 5]);
        let (mut read_codes, mut outlets) = ([9; 6], [9; 256]);
        let shape = read(&file, &mut read_codes, &mut outlets).unwrap();
        assert_eq!(shape, Shape { rows: 2, cols: 3, outlets: 2 });
        assert_eq!((read_codes, &outlets[..3]), (codes, &[1, 5, 9][..]));
        let mut written = vec![9; file.len()];
        assert_eq!(write(2, 3, &codes, &[1, 5], &mut written), Ok(file.len()));
        assert_eq!(written, file);
    }

    #[test]
    fn cut_anywhere_it_is_refused() {
        for length in 0..EXAMPLE.len() {
            let number = match length {
                0..6 => 1,
                6..14 => 4,
                _ => 6,
            };
            assert_eq!(number_of(&EXAMPLE[..length]), number);
        }
    }

    #[test]
    fn each_number_of_reading() {
        let damaged = |at: usize, byte: u8| {
            let mut file = EXAMPLE;
            file[at] = byte;
            number_of(&file)
        };
        assert_eq!(damaged(1, 0), 1);
        assert_eq!(damaged(2, 0), 2);
        assert_eq!(damaged(3, 1), 2, "both bytes of a number count");
        assert_eq!(damaged(2, 65), 2);
        assert_eq!(damaged(2, 2), 4, "no second row");
        assert_eq!(damaged(8, 1), 4);
        assert_eq!(damaged(9, 1), 4, "both bytes of a number count");
        assert_eq!(damaged(10, 3), 5);
        assert_eq!(damaged(10, 254), 5);
        assert_eq!(damaged(14, 0), 6);
        assert_eq!(damaged(16, 1), 7);
        assert_eq!(damaged(17, 1), 7, "both bytes of a number count");
        assert_eq!(damaged(18, 4), 7);
        let trailing: Vec<u8> = EXAMPLE.into_iter().chain([0]).collect();
        assert_eq!(number_of(&trailing), 9);
        assert_eq!(read(&EXAMPLE, &mut [0; 3], &mut [0; 256]), Err(Refusal(3)));
        assert_eq!(read(&EXAMPLE, &mut [0; 4], &mut [0; 255]), Err(Refusal(3)));
    }

    #[test]
    fn rows_and_outlets_at_their_edges() {
        let of = |rows, count| sheet(rows, 1, &[0; 65], &vec![0; count]);
        assert_eq!(number_of(&of(64, 256)), 0);
        assert_eq!(number_of(&of(65, 256)), 2);
        assert_eq!(number_of(&of(64, 257)), 8);
        let mut outside = of(64, 257);
        let at = outside.len() - 4;
        outside[at] = 1;
        assert_eq!(number_of(&outside), 7, "7 comes before 8 for one record");
    }

    #[test]
    fn each_number_of_writing() {
        let mut file = [9; 100];
        let mut number = |rows, cols, codes: &[u8], outlets: &[u32], room: usize| {
            let written = write(rows, cols, codes, outlets, &mut file[..room]);
            if written.is_err() {
                assert_eq!(file, [9; 100]);
            } else {
                file.fill(9);
            }
            written.map_or_else(|Refusal(number)| number, |_| 0)
        };
        assert_eq!(number(65, 1, &[], &[], 100), 2);
        assert_eq!(number(1, usize::MAX, &[], &[], 100), 2);
        assert_eq!(number(2, 2, &[1; 3], &[], 100), 3);
        assert_eq!(number(2, 2, &[1, 1, 1, 3], &[], 100), 5);
        assert_eq!(number(2, 2, &[1, 1, 1, 254], &[], 100), 5);
        assert_eq!(number(2, 2, &[1, 1, 1, 1, 3], &[3, 3], 100), 0);
        assert_eq!(number(2, 2, &[1; 4], &[4; 257], 100), 8);
        assert_eq!(number(2, 2, &[1; 4], &[0, 4], 100), 7);
        assert_eq!(number(2, 2, &[1; 4], &[], 20), 0);
        assert_eq!(number(2, 2, &[1; 4], &[], 19), 23);
    }
}
