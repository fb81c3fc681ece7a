//! The tables spelled out, and what is due by them.

use super::pairs;
use crate::calls::{Comparison, Conversion};

/// The ten codes of a table: null, then E, SE, S, SW, W, NW, N, NE, then a pond.
pub fn codes_of(table: u32) -> [u8; 10] {
    match table {
        1 => [0, 1, 2, 4, 8, 16, 32, 64, 128, 255],
        2 => [0, 8, 7, 6, 5, 4, 3, 2, 1, 255],
        3 => [0, 5, 6, 7, 8, 1, 2, 3, 4, 255],
        _ => panic!("no table has number {table}"),
    }
}

/// The ten codes in a row, in a column and in two rows, between all pairs.
pub fn ten_codes(comparison: &mut Comparison) {
    for (from, to) in pairs() {
        comparison.about(format!("the codes of table {from} in table {to}"));
        for (rows, cols) in [(1, 10), (10, 1), (2, 5)] {
            let call = Conversion::new((from, to), rows, cols, &codes_of(from));
            let due = (0, codes_of(to).to_vec());
            assert_eq!(comparison.convert(&call), due, "{}", comparison.subject());
        }
    }
}

/// Every byte between all pairs: the only one; the first, the last and one in the midst of sound
/// codes; and the first beyond them, which is not judged.
pub fn every_byte(comparison: &mut Comparison) {
    for (from, to) in pairs() {
        let (codes, others) = (codes_of(from), codes_of(to));
        for byte in 0..=255 {
            comparison.about(format!("byte {byte} from table {from} to table {to}"));
            let due = codes.iter().position(|&code| code == byte).map(|place| others[place]);
            let call = Conversion::new((from, to), 1, 1, &[byte]);
            is_due(comparison, &call, due.map(|code| vec![code]));
            for at in [0, 4, 9] {
                let call = Conversion::new((from, to), 2, 5, &with(codes, at, byte));
                is_due(comparison, &call, due.map(|code| with(others, at, code)));
            }
            let mut call = Conversion::new((from, to), 2, 5, &codes);
            call.codes.push(byte);
            is_due(comparison, &call, Some(others.to_vec()));
        }
    }
}

/// The codes with another one at a place.
fn with(mut codes: [u8; 10], at: usize, code: u8) -> Vec<u8> {
    codes[at] = code;
    codes.to_vec()
}

/// Makes a call that must write such a grid or be refused with 12.
fn is_due(comparison: &mut Comparison, call: &Conversion, grid: Option<Vec<u8>>) {
    let (number, found) = comparison.convert(call);
    match grid {
        Some(grid) => assert_eq!((number, found), (0, grid), "{}", comparison.subject()),
        None => assert_eq!(number, 12, "{}", comparison.subject()),
    }
}
