//! The three tables of codes, and what a code of one is in another.
//!
//! A table is laid out as its words say it: where its first code goes, and
//! which way around the cell the next ones follow. What a code means is then
//! the row and column change of its step, and the same change is looked for in
//! the other table.

use std::iter::successors;

use crate::ground::{NULL, POND};

/// Row and column change of a step; rows grow to the south.
type Change = (isize, isize);

const EAST: Change = (0, 1);
const NORTH_EAST: Change = (-1, 1);
const WEST: Change = (0, -1);

/// The change an eighth of a turn farther, clockwise on the map.
fn clockwise((down, right): Change) -> Change {
    ((right + down).signum(), (right - down).signum())
}

/// The change an eighth of a turn farther, counter-clockwise on the map.
fn counter_clockwise((down, right): Change) -> Change {
    ((down - right).signum(), (down + right).signum())
}

/// Codes that count one by one.
const BY_ONE: [u8; 8] = [1, 2, 3, 4, 5, 6, 7, 8];

/// Codes that double.
const BY_DOUBLING: [u8; 8] = [1, 2, 4, 8, 16, 32, 64, 128];

/// What a code says of its cell.
#[derive(Clone, Copy, Debug, PartialEq, Eq)]
enum Meaning {
    /// There is no ground.
    Null,
    /// It drains nowhere.
    Pond,
    /// It flows to the neighbour there.
    To(Change),
}

/// A table of codes.
#[derive(Clone, Copy)]
pub struct Table {
    /// The codes of the eight directions, as they follow each other.
    codes: [u8; 8],
    /// Where the first of them goes.
    first: Change,
    /// From where one goes to where the next goes.
    next: fn(Change) -> Change,
}

impl Table {
    /// The table of that number, if it is 1 to 3.
    pub fn numbered(number: u32) -> Option<Table> {
        match number {
            1 => Some(Table { codes: BY_DOUBLING, first: EAST, next: clockwise }),
            2 => Some(Table { codes: BY_ONE, first: NORTH_EAST, next: counter_clockwise }),
            3 => Some(Table { codes: BY_ONE, first: WEST, next: clockwise }),
            _ => None,
        }
    }

    /// The ten codes, each with its meaning. Those of a null cell and of a pond
    /// are the same in every table.
    fn legend(&self) -> impl Iterator<Item = (u8, Meaning)> + '_ {
        let changes = successors(Some(self.first), |&change| Some((self.next)(change)));
        let directions = self.codes.into_iter().zip(changes.map(Meaning::To));
        [(NULL, Meaning::Null), (POND, Meaning::Pond)].into_iter().chain(directions)
    }

    /// What a byte means here, if it is a code of this table.
    fn meaning(&self, byte: u8) -> Option<Meaning> {
        self.legend().find(|&(code, _)| code == byte).map(|(_, meaning)| meaning)
    }

    /// The code with that meaning: every table has all ten.
    fn code(&self, meaning: Meaning) -> u8 {
        let mut codes = self.legend().filter(|&(_, other)| other == meaning);
        codes.next().expect("a code for each meaning").0
    }

    /// The other table's code for what a byte means here, if it is a code of
    /// this table.
    pub fn converted(&self, byte: u8, to: &Table) -> Option<u8> {
        self.meaning(byte).map(|meaning| to.code(meaning))
    }
}

#[cfg(test)]
mod tests {
    use super::*;
    use crate::ground::{is_code, NEIGHBOURS};

    const NUMBERS: [u32; 3] = [1, 2, 3];

    fn table(number: u32) -> Table {
        Table::numbered(number).expect("a table")
    }

    /// The ten codes of a table, spelled out: null, then E, SE, S, SW, W, NW, N, NE, then a pond.
    fn spelled(number: u32) -> [u8; 10] {
        match number {
            1 => [0, 1, 2, 4, 8, 16, 32, 64, 128, 255],
            2 => [0, 8, 7, 6, 5, 4, 3, 2, 1, 255],
            3 => [0, 5, 6, 7, 8, 1, 2, 3, 4, 255],
            _ => panic!("no table has number {number}"),
        }
    }

    /// All nine pairs, of one table with itself too.
    fn pairs() -> impl Iterator<Item = (u32, u32)> {
        NUMBERS.into_iter().flat_map(|from| NUMBERS.map(|to| (from, to)))
    }

    /// Every byte from one table to another.
    fn all_converted(from: u32, to: u32) -> Vec<Option<u8>> {
        (0..=255).map(|byte| table(from).converted(byte, &table(to))).collect()
    }

    #[test]
    fn three_numbers() {
        let found = (0..1000).filter(|&number| Table::numbered(number).is_some());
        assert_eq!(found.collect::<Vec<u32>>(), NUMBERS);
        for number in [257, 1 << 16 | 1, 1 << 31 | 3, u32::MAX - 1, u32::MAX] {
            assert!(Table::numbered(number).is_none());
        }
    }

    #[test]
    fn eighths_of_a_turn() {
        for (way, &change) in NEIGHBOURS.iter().enumerate() {
            assert_eq!(clockwise(change), NEIGHBOURS[(way + 1) % 8]);
            assert_eq!(counter_clockwise(change), NEIGHBOURS[(way + 7) % 8]);
        }
    }

    #[test]
    fn every_byte_between_all_pairs() {
        for (from, to) in pairs() {
            let mut due = [None; 256];
            for (code, other) in spelled(from).into_iter().zip(spelled(to)) {
                due[code as usize] = Some(other);
            }
            assert_eq!(all_converted(from, to), due, "from {from} to {to}");
        }
    }

    #[test]
    fn by_way_of_a_third() {
        for (from, to) in pairs() {
            for by in NUMBERS {
                let first = all_converted(from, by).into_iter();
                let both = first.map(|code| table(by).converted(code?, &table(to)));
                assert_eq!(both.collect::<Vec<_>>(), all_converted(from, to));
            }
        }
    }

    #[test]
    fn there_and_back_and_to_itself() {
        for (from, to) in pairs() {
            let itself: Vec<Option<u8>> =
                (0..=255).map(|byte| spelled(from).contains(&byte).then_some(byte)).collect();
            assert_eq!(all_converted(from, from), itself);
            let there = all_converted(from, to).into_iter();
            let back = there.map(|code| table(to).converted(code?, &table(from)));
            assert_eq!(back.collect::<Vec<_>>(), itself);
        }
    }

    #[test]
    fn the_first_table_is_the_grounds_own() {
        for byte in 0..=255 {
            assert_eq!(table(1).meaning(byte).is_some(), is_code(byte));
        }
        for (way, &change) in NEIGHBOURS.iter().enumerate() {
            assert_eq!(table(1).meaning(1 << way), Some(Meaning::To(change)));
        }
    }

    #[test]
    fn null_cells_and_ponds_in_every_table() {
        for number in NUMBERS {
            assert_eq!(table(number).meaning(0), Some(Meaning::Null));
            assert_eq!(table(number).meaning(255), Some(Meaning::Pond));
            assert_eq!(table(number).meaning(254), None);
        }
    }
}
