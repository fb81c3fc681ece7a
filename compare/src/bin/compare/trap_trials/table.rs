//! The traps: small grids, each with a mistake that it catches. Every headwater in them is on the
//! divide, so that both editions give the same.

use super::trap::{answer, Trap};

#[rustfmt::skip]
pub const TRAPS: [Trap; 25] = [
    Trap {
        name: "M1", rows: 1, cols: 1,
        codes: &[1],
        accumulation: &[1],
        outlets: &[0],
        answers: &[answer(1, (0, 0), &[0], 1, 0)],
    },
    Trap {
        name: "M2", rows: 1, cols: 3,
        codes: &[1, 4, 16],
        accumulation: &[1, 3, 1],
        outlets: &[1],
        answers: &[answer(3, (1, 0), &[2, 0], 3, 0)],
    },
    Trap {
        name: "M3", rows: 1, cols: 4,
        codes: &[1, 4, 16, 16],
        accumulation: &[1, 4, 2, 1],
        outlets: &[1],
        answers: &[answer(4, (2, 0), &[3], 3, 1)],
    },
    Trap {
        // Of the inflows of 4, one step up, 5, 3 and 0 are visited, and 1 + √2 is
        // met. The next has the limit 1 + 1 and is dropped; the last ties.
        name: "M4", rows: 3, cols: 3,
        codes: &[2, 4, 8, 1, 4, 16, 1, 4, 16],
        accumulation: &[1, 1, 1, 1, 6, 1, 1, 9, 1],
        outlets: &[7],
        answers: &[answer(9, (1, 1), &[0, 2], 8, 1)],
    },
    Trap {
        name: "M5", rows: 3, cols: 3,
        codes: &[2, 4, 8, 1, 4, 16, 1, 4, 16],
        accumulation: &[1, 1, 1, 1, 6, 1, 1, 9, 1],
        outlets: &[7, 4],
        answers: &[
            answer(3, (1, 0), &[8, 6], 3, 0),
            answer(6, (0, 1), &[0, 2], 5, 1),
        ],
    },
    Trap {
        // 0 goes diagonally then straight, 2 straight then diagonally.
        name: "a tie by different routes", rows: 3, cols: 3,
        codes: &[2, 0, 4, 0, 4, 8, 0, 4, 0],
        accumulation: &[1, 0, 1, 0, 2, 2, 0, 5, 0],
        outlets: &[7],
        answers: &[answer(5, (1, 1), &[0, 2], 5, 0)],
    },
    Trap {
        // Both routes go up to 4 first; there east comes before north.
        name: "a tie that parts above the outlet", rows: 3, cols: 3,
        codes: &[0, 4, 0, 0, 8, 16, 16, 0, 0],
        accumulation: &[0, 1, 0, 0, 3, 1, 4, 0, 0],
        outlets: &[6],
        answers: &[answer(4, (1, 1), &[5, 1], 4, 0)],
    },
    Trap {
        // √2 met first; the straight neighbour's limit is 1.
        name: "a straight neighbour after a diagonal one", rows: 2, cols: 2,
        codes: &[64, 0, 64, 32],
        accumulation: &[3, 0, 1, 1],
        outlets: &[0],
        answers: &[answer(3, (0, 1), &[3], 2, 1)],
    },
    Trap {
        // √2 is met at 8 and is the limit of 6, 0 and 2. 3 and 1, one straight
        // step away, are dropped.
        name: "limit equal to the greatest, ties on all diagonals", rows: 3, cols: 3,
        codes: &[2, 4, 8, 1, 4, 16, 128, 0, 32],
        accumulation: &[1, 1, 1, 1, 8, 1, 1, 0, 1],
        outlets: &[4],
        answers: &[answer(8, (0, 1), &[8, 6, 0, 2], 6, 2)],
    },
    Trap {
        // Short ties from six neighbours, of which 8 and 5, straight after a
        // diagonal one, are dropped; then the last leads farther.
        name: "a late longer path after short ties", rows: 4, cols: 4,
        codes: &[0, 0, 0, 8, 2, 4, 8, 0, 1, 4, 16, 0, 128, 0, 32, 0],
        accumulation: &[0, 0, 0, 1, 1, 1, 2, 0, 1, 9, 1, 0, 1, 0, 1, 0],
        outlets: &[9],
        answers: &[answer(9, (0, 2), &[3], 7, 2)],
    },
    Trap {
        // Four to the east; 1 + √2 is shorter, so both western cells go at once.
        name: "a drop takes all cells above", rows: 1, cols: 7,
        codes: &[1, 1, 4, 16, 16, 16, 16],
        accumulation: &[1, 2, 7, 4, 3, 2, 1],
        outlets: &[2],
        answers: &[answer(7, (4, 0), &[6], 5, 2)],
    },
    Trap {
        // At 8, three steps up, four steps are met and are the limit of the
        // northern cell too, which ties. At 6, one step up, the limit of the
        // northern cell is two steps: it is dropped.
        name: "drops look at the length so far", rows: 2, cols: 5,
        codes: &[0, 4, 0, 4, 0, 16, 16, 16, 16, 16],
        accumulation: &[0, 1, 0, 1, 0, 7, 6, 4, 3, 1],
        outlets: &[5],
        answers: &[answer(7, (4, 0), &[9, 3], 6, 1)],
    },
    Trap {
        // The same with a lower outlet: the upper one's cells do not count.
        name: "an upper outlet cuts the search", rows: 2, cols: 5,
        codes: &[0, 4, 0, 4, 0, 16, 16, 16, 16, 16],
        accumulation: &[0, 1, 0, 1, 0, 7, 6, 4, 3, 1],
        outlets: &[5, 8],
        answers: &[
            answer(4, (2, 0), &[7, 1], 4, 0),
            answer(3, (1, 0), &[9, 3], 3, 0),
        ],
    },
    Trap {
        // 1 and 3 are fed only by outlets, 0 is an outlet and a headwater.
        name: "headwaters fed only by outlets", rows: 1, cols: 5,
        codes: &[1, 1, 1, 1, 1],
        accumulation: &[1, 2, 3, 4, 5],
        outlets: &[4, 2, 0],
        answers: &[
            answer(2, (1, 0), &[3], 2, 0),
            answer(2, (1, 0), &[1], 2, 0),
            answer(1, (0, 0), &[0], 1, 0),
        ],
    },
    Trap {
        name: "an outlet fed only by outlets", rows: 2, cols: 3,
        codes: &[1, 4, 16, 1, 4, 16],
        accumulation: &[1, 3, 1, 1, 6, 1],
        outlets: &[4, 3, 1, 5],
        answers: &[
            answer(1, (0, 0), &[4], 1, 0),
            answer(1, (0, 0), &[3], 1, 0),
            answer(3, (1, 0), &[2, 0], 3, 0),
            answer(1, (0, 0), &[5], 1, 0),
        ],
    },
    Trap {
        // The eastern neighbour of 2 is 3 in its own row only: 3 lies in the
        // next row and flows west, off the grid.
        name: "rows do not run on", rows: 2, cols: 3,
        codes: &[1, 1, 1, 16, 16, 16],
        accumulation: &[1, 2, 3, 3, 2, 1],
        outlets: &[2, 3],
        answers: &[
            answer(3, (2, 0), &[0], 3, 0),
            answer(3, (2, 0), &[5], 3, 0),
        ],
    },
    Trap {
        // Seven steps east against five diagonals: 7 is shorter than 5√2.
        name: "M8 on the ground", rows: 6, cols: 13,
        codes: &[
            2, 0, 0, 0, 0, 0, 0, 0, 0, 0, 0, 0, 0,
            0, 2, 0, 0, 0, 0, 0, 0, 0, 0, 0, 0, 0,
            0, 0, 2, 0, 0, 0, 0, 0, 0, 0, 0, 0, 0,
            0, 0, 0, 2, 0, 0, 0, 0, 0, 0, 0, 0, 0,
            0, 0, 0, 0, 2, 0, 0, 0, 0, 0, 0, 0, 0,
            0, 0, 0, 0, 0, 4, 16, 16, 16, 16, 16, 16, 16,
        ],
        accumulation: &[
            1, 0, 0, 0, 0, 0, 0, 0, 0, 0, 0, 0, 0,
            0, 2, 0, 0, 0, 0, 0, 0, 0, 0, 0, 0, 0,
            0, 0, 3, 0, 0, 0, 0, 0, 0, 0, 0, 0, 0,
            0, 0, 0, 4, 0, 0, 0, 0, 0, 0, 0, 0, 0,
            0, 0, 0, 0, 5, 0, 0, 0, 0, 0, 0, 0, 0,
            0, 0, 0, 0, 0, 13, 7, 6, 5, 4, 3, 2, 1,
        ],
        outlets: &[70],
        answers: &[answer(13, (0, 5), &[0], 13, 0)],
    },
    Trap {
        // Four diagonals: 4√2 is shorter than 6, so all four are dropped.
        name: "a diagonal arm dropped whole", rows: 5, cols: 11,
        codes: &[
            2, 0, 0, 0, 0, 0, 0, 0, 0, 0, 0,
            0, 2, 0, 0, 0, 0, 0, 0, 0, 0, 0,
            0, 0, 2, 0, 0, 0, 0, 0, 0, 0, 0,
            0, 0, 0, 2, 0, 0, 0, 0, 0, 0, 0,
            0, 0, 0, 0, 4, 16, 16, 16, 16, 16, 16,
        ],
        accumulation: &[
            1, 0, 0, 0, 0, 0, 0, 0, 0, 0, 0,
            0, 2, 0, 0, 0, 0, 0, 0, 0, 0, 0,
            0, 0, 3, 0, 0, 0, 0, 0, 0, 0, 0,
            0, 0, 0, 4, 0, 0, 0, 0, 0, 0, 0,
            0, 0, 0, 0, 11, 6, 5, 4, 3, 2, 1,
        ],
        outlets: &[48],
        answers: &[answer(11, (6, 0), &[54], 7, 4)],
    },
    Trap {
        // Walks that end beside null ground, and an outlet in mid-walk: what
        // lies below it is no part of its subwatershed.
        name: "ground below the outlet", rows: 1, cols: 6,
        codes: &[1, 1, 1, 1, 0, 16],
        accumulation: &[1, 2, 3, 4, 0, 1],
        outlets: &[1, 5],
        answers: &[
            answer(2, (1, 0), &[0], 2, 0),
            answer(1, (0, 0), &[5], 1, 0),
        ],
    },
    Trap {
        // Straight inflows after a diagonal one are dropped.
        name: "five inflows at the edge", rows: 2, cols: 3,
        codes: &[1, 64, 16, 128, 64, 32],
        accumulation: &[1, 6, 1, 1, 1, 1],
        outlets: &[1],
        answers: &[answer(6, (0, 1), &[5, 3], 4, 2)],
    },
    Trap {
        // M2 with 0 an outlet too: its cell and its tie are its own.
        name: "an outlet beside a tie", rows: 1, cols: 3,
        codes: &[1, 4, 16],
        accumulation: &[1, 3, 1],
        outlets: &[1, 0],
        answers: &[
            answer(2, (1, 0), &[2], 2, 0),
            answer(1, (0, 0), &[0], 1, 0),
        ],
    },
    Trap {
        // East and west tie at 1 before the north leads to 2: one list place
        // suffices, and a second keeps what it held.
        name: "short ties need no place", rows: 3, cols: 3,
        codes: &[0, 4, 0, 0, 4, 0, 1, 4, 16],
        accumulation: &[0, 1, 0, 0, 2, 0, 1, 5, 1],
        outlets: &[7],
        answers: &[answer(5, (2, 0), &[1], 5, 0)],
    },
    Trap {
        // East comes before south-west at the outlet, though what lies at the
        // end has the greater number.
        name: "a tie in the order of routes", rows: 3, cols: 7,
        codes: &[
            0, 0, 0, 64, 16, 0, 0,
            0, 0, 128, 0, 0, 32, 0,
            1, 128, 0, 0, 0, 0, 32,
        ],
        accumulation: &[
            0, 0, 0, 7, 3, 0, 0,
            0, 0, 3, 0, 0, 2, 0,
            1, 2, 0, 0, 0, 0, 1,
        ],
        outlets: &[3],
        answers: &[answer(7, (1, 2), &[20, 14], 7, 0)],
    },
    Trap {
        // Three times the greatest grows, to 3, 2 + √2 and 1 + 2√2; 32 and 18,
        // at 2, then drop three single cells each. The longest comes last.
        name: "drops before the longest", rows: 6, cols: 7,
        codes: &[
            2, 0, 0, 0, 0, 0, 0,
            0, 2, 2, 2, 4, 8, 8,
            0, 0, 2, 2, 4, 8, 8,
            0, 0, 2, 8, 16, 16, 16,
            0, 0, 0, 128, 64, 32, 32,
            0, 0, 128, 128, 64, 32, 32,
        ],
        accumulation: &[
            1, 0, 0, 0, 0, 0, 0,
            0, 2, 1, 1, 1, 1, 1,
            0, 0, 3, 2, 4, 2, 1,
            0, 0, 1, 26, 22, 4, 1,
            0, 0, 0, 3, 4, 2, 1,
            0, 0, 1, 1, 1, 1, 1,
        ],
        outlets: &[24],
        answers: &[answer(26, (0, 3), &[0], 20, 6)],
    },
    Trap {
        // East of a single column lies no cell, though the next number is one.
        name: "one column", rows: 2, cols: 1,
        codes: &[1, 1],
        accumulation: &[1, 1],
        outlets: &[0, 1],
        answers: &[
            answer(1, (0, 0), &[0], 1, 0),
            answer(1, (0, 0), &[1], 1, 0),
        ],
    },
];
