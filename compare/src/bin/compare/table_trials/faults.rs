//! Faults of a converting call, each alone and with those of the other checks.

use std::iter::once;

use super::{pairs, TABLES};
use crate::calls::{Comparison, Conversion};

/// Numbers for 24. Some are right in their low bits.
const NO_TABLES: [u32; 9] = [0, 4, 5, 8, 255, 0x101, 0x1_0002, 0x8000_0003, u32::MAX];

/// Something wrong with a sound call of so many cells.
type Fault = (&'static str, fn(&mut Conversion, usize));

/// For 10. Some sides are right in their low bits, and so are the products of some.
const SIDES: [Fault; 13] = [
    ("no rows", |call, _| call.rows = 0),
    ("no columns", |call, _| call.cols = 0),
    ("4,097 rows", |call, _| call.rows = 4097),
    ("4,097 columns", |call, _| call.cols = 4097),
    ("rows beyond 16 bits", |call, _| call.rows += 1 << 16),
    ("columns beyond 16 bits", |call, _| call.cols += 1 << 16),
    ("rows beyond 32 bits", |call, _| call.rows += 1 << 32),
    ("columns beyond 32 bits", |call, _| call.cols += 1 << 32),
    ("rows with the highest bit", |call, _| call.rows += 1 << 63),
    ("most rows", |call, _| call.rows = usize::MAX),
    ("most columns", |call, _| call.cols = usize::MAX),
    ("most of both", |call, _| (call.rows, call.cols) = (usize::MAX, usize::MAX)),
    ("a product beyond 64 bits", |call, _| (call.rows, call.cols) = (1 << 32, 1 << 32)),
];

/// For 11.
const ROOMS: [Fault; 5] = [
    ("codes one short", |call, cells| call.codes.truncate(cells - 1)),
    ("no codes", |call, _| call.codes.clear()),
    ("written grid one short", |call, cells| call.room = cells - 1),
    ("no written grid", |call, _| call.room = 0),
    ("both one short", |call, cells| {
        call.codes.truncate(cells - 1);
        call.room = cells - 1;
    }),
];

/// For 12, among the cells' codes that are lent.
const CODES: [Fault; 4] = [
    ("a first code of no table", |call, cells| {
        lent(call, cells).iter_mut().take(1).for_each(|code| *code = 9);
    }),
    ("a last code of no table", |call, cells| {
        lent(call, cells).iter_mut().rev().take(1).for_each(|code| *code = 254);
    }),
    ("a last code of another table", |call, cells| {
        let other = code_of_another(call.from);
        lent(call, cells).iter_mut().rev().take(1).for_each(|code| *code = other);
    }),
    ("all codes of another table", |call, cells| {
        let other = code_of_another(call.from);
        lent(call, cells).fill(other);
    }),
];

/// The cells' codes, as far as they are lent.
fn lent(call: &mut Conversion, cells: usize) -> &mut [u8] {
    let count = call.codes.len().min(cells);
    &mut call.codes[..count]
}

/// A code that some table has and this one has not.
fn code_of_another(table: u32) -> u8 {
    if table == 1 {
        3
    } else {
        16
    }
}

/// Pairs of which one number is of no table, or both, alike and different.
fn no_pairs() -> impl Iterator<Item = (u32, u32)> {
    let next = NO_TABLES.into_iter().cycle().skip(1);
    NO_TABLES.into_iter().zip(next).flat_map(|(none, other)| {
        let one = TABLES.into_iter().flat_map(move |table| [(none, table), (table, none)]);
        one.chain([(none, none), (none, other)])
    })
}

/// Every fault with every fault of the other checks, and without.
pub fn together(comparison: &mut Comparison) {
    for (rows, cols, beyond) in [(1, 1, 0), (1, 5, 0), (5, 1, 3), (3, 4, 6)] {
        for tables in pairs() {
            on_tables(comparison, &sound(tables, rows, cols, beyond), None);
        }
        for tables in no_pairs() {
            on_tables(comparison, &sound(tables, rows, cols, beyond), Some(24));
        }
    }
}

/// A call with codes that all tables have, and with places beyond them in both grids; what is lent
/// there is no code of any table.
fn sound(tables: (u32, u32), rows: usize, cols: usize, beyond: usize) -> Conversion {
    let codes = [1, 2, 255, 4, 8, 0].into_iter().cycle().take(rows * cols);
    let codes: Vec<u8> = codes.chain([254].repeat(beyond)).collect();
    Conversion::new(tables, rows, cols, &codes)
}

/// All faults of sides, rooms and codes, on a call whose tables give it a number already or do not.
fn on_tables(comparison: &mut Comparison, sound: &Conversion, number: Option<u32>) {
    for sides in none_or(&SIDES) {
        for rooms in none_or(&ROOMS) {
            for codes in none_or(&CODES) {
                let faults = [(10, sides), (11, rooms), (12, codes)];
                damaged(comparison, sound, number, faults);
            }
        }
    }
}

/// No fault, then each.
fn none_or(faults: &'static [Fault]) -> impl Iterator<Item = Option<&'static Fault>> {
    once(None).chain(faults.iter().map(Some))
}

/// The call with these faults as well, which stand in the order of their checks: the first fault
/// gives the number.
fn damaged(
    comparison: &mut Comparison,
    sound: &Conversion,
    mut number: Option<u32>,
    faults: [(u32, Option<&Fault>); 3],
) {
    let &Conversion { from, to, rows, cols, .. } = sound;
    let mut subject = format!("tables {from} and {to}, {rows} x {cols}");
    let mut call = sound.clone();
    for (check, fault) in faults {
        if let Some((name, make)) = fault {
            make(&mut call, rows * cols);
            number = number.or(Some(check));
            subject = format!("{subject}, {name}");
        }
    }
    comparison.about(subject);
    let due = number.unwrap_or(0);
    assert_eq!(comparison.convert(&call).0, due, "{}", comparison.subject());
}
