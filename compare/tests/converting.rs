//! The entry for converting: its numbers, in order, and what it leaves.

use second_reading::entries::{accumulate, convert, MOST_SIDE};
use second_reading::random::Random;
use second_reading::Refusal;

const TABLES: [u32; 3] = [1, 2, 3];

/// What a lent byte holds before a call: no code of any table.
const UNTOUCHED: u8 = 0xEE;

/// The number, and the written grid after it.
fn called(
    (from, to): (u32, u32),
    (rows, cols): (usize, usize),
    codes: &[u8],
    room: usize,
) -> (u32, Vec<u8>) {
    let mut converted = vec![UNTOUCHED; room];
    let answer = convert(from, to, rows, cols, codes, &mut converted);
    (answer.map_or_else(|Refusal(number)| number, |()| 0), converted)
}

/// M4's ground with a corner null and another a pond, in each table: SE S SW, E S W, null S pond.
const GROUNDS: [[u8; 9]; 3] =
    [[2, 4, 8, 1, 4, 16, 0, 4, 255], [7, 6, 5, 8, 6, 4, 0, 6, 255], [6, 7, 8, 5, 7, 1, 0, 7, 255]];

fn ground(table: u32) -> &'static [u8; 9] {
    &GROUNDS[table as usize - 1]
}

#[test]
fn one_ground_in_all_tables() {
    for from in TABLES {
        for to in TABLES {
            let tables = (from, to);
            assert_eq!(called(tables, (3, 3), ground(from), 9), (0, ground(to).to_vec()));
            // Places beyond are kept, and what is lent beyond the codes is not judged.
            let longer = [&ground(from)[..], &[254, 3]].concat();
            let (number, converted) = called(tables, (3, 3), &longer, 12);
            assert_eq!((number, &converted[..9]), (0, &ground(to)[..]));
            assert_eq!(converted[9..], [UNTOUCHED; 3]);
        }
        let (_, own) = called((from, 1), (3, 3), ground(from), 9);
        let mut accumulation = [0; 9];
        assert_eq!(accumulate(3, 3, &own, &mut accumulation), Ok(()));
        assert_eq!(accumulation, [1, 1, 1, 1, 6, 1, 0, 7, 1]);
    }
}

#[test]
fn what_is_converted_can_be_converted_on() {
    let mut random = Random::new(2);
    for _ in 0..300 {
        let (rows, cols) = (random.between(1, 9), random.between(1, 9));
        let codes: Vec<u8> =
            (0..rows * cols).map(|_| random.pick(&[0, 1, 2, 4, 8, 16, 32, 64, 128, 255])).collect();
        let convert = |from, to, codes: &[u8]| {
            let (number, converted) = called((from, to), (rows, cols), codes, codes.len());
            assert_eq!(number, 0);
            converted
        };
        for by in TABLES {
            let there = convert(1, by, &codes);
            assert_eq!(convert(by, 1, &there), codes);
            for to in TABLES {
                assert_eq!(convert(by, to, &there), convert(1, to, &codes));
            }
        }
    }
}

#[test]
fn refusals_change_nothing() {
    let refused = |due: u32, tables: (u32, u32), sides: (usize, usize), codes: &[u8], room| {
        assert_eq!(called(tables, sides, codes, room), (due, vec![UNTOUCHED; room]));
    };
    // Each call has what the later ones are refused for, too.
    let bad = &[1, 2, 4, 9];
    for none in [0, 4, 5, u32::MAX] {
        for tables in [(none, none), (none, 1), (2, none)] {
            refused(24, tables, (0, usize::MAX), &bad[1..], 3);
            refused(24, tables, (2, 2), &bad[1..], 3);
            refused(24, tables, (2, 2), bad, 4);
            refused(24, tables, (2, 2), &bad[..2], 4);
        }
    }
    for tables in [(1, 1), (1, 2), (3, 1), (2, 3)] {
        for side in [0, MOST_SIDE + 1, usize::MAX] {
            refused(10, tables, (side, 2), &bad[1..], 3);
            refused(10, tables, (2, side), &bad[1..], 3);
        }
        refused(10, tables, (usize::MAX, usize::MAX), bad, 4);
        refused(11, tables, (2, 2), &bad[1..], 4);
        refused(11, tables, (2, 2), bad, 3);
        refused(11, tables, (MOST_SIDE, MOST_SIDE), bad, 4);
        refused(12, tables, (2, 2), bad, 4);
        refused(12, tables, (1, 1), &bad[3..], 4);
    }
    // A code of another table.
    refused(12, (1, 2), (1, 1), &[3], 1);
    refused(12, (2, 1), (1, 1), &[16], 1);
    refused(12, (3, 1), (1, 1), &[128], 1);
    // A code of none.
    for tables in [(1, 1), (1, 3), (2, 1), (3, 2)] {
        refused(12, tables, (1, 1), &[254], 1);
    }
}
