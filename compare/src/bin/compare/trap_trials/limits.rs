//! The traps for the limit of a neighbour with n cells: the length of the cell
//! it is entered from, the true step, and (n − 1)√2. Each tells that limit from
//! others near it by the cells visited and dropped, some by the list as well.
//! Every headwater is on the divide, so that both editions give the same.

use super::trap::{answer, Trap};

#[rustfmt::skip]
pub const LIMITS: [Trap; 10] = [
    Trap {
        // 2√2 is met at 24. The straight arms after it have the limit 1 + √2 and
        // go whole; the diagonal ones have 2√2, equal, and tie. With the step
        // taken as diagonal, the lower cells of the straight arms are visited;
        // taken as straight or left out, or with drops at equality, ties are lost.
        name: "a star of eight arms", rows: 5, cols: 5,
        codes: &[
            2, 0, 4, 0, 8,
            0, 2, 4, 8, 0,
            1, 1, 255, 16, 16,
            0, 128, 64, 32, 0,
            128, 0, 64, 0, 32,
        ],
        accumulation: &[
            1, 0, 1, 0, 1,
            0, 2, 2, 2, 0,
            1, 2, 17, 2, 1,
            0, 2, 2, 2, 0,
            1, 0, 1, 0, 1,
        ],
        outlets: &[12],
        answers: &[answer(17, (0, 2), &[24, 20, 0, 4], 11, 6)],
    },
    Trap {
        // 2√2 is met at 8. 1 + √2, the limit of 3, is shorter: both its cells are
        // dropped. 2√2 for it, the step taken as diagonal, would drop 6 alone, and
        // 1 + 2√2, with n for n − 1, nothing.
        name: "a valley of two cells after two diagonals", rows: 3, cols: 3,
        codes: &[64, 0, 0, 64, 32, 0, 64, 0, 32],
        accumulation: &[5, 0, 0, 2, 2, 0, 1, 0, 1],
        outlets: &[0],
        answers: &[answer(5, (0, 2), &[8], 3, 2)],
    },
    Trap {
        // 1 + √2 is met at 0 and is the limit of 3, so that 3 is visited; that of
        // 1 above it is 2.
        name: "an equal limit by a straight step", rows: 3, cols: 2,
        codes: &[4, 4, 2, 4, 0, 4],
        accumulation: &[1, 1, 2, 2, 0, 5],
        outlets: &[5],
        answers: &[answer(5, (1, 1), &[0], 4, 1)],
    },
    Trap {
        // 2√2 is met at 0 and is the limit of 7, so that 7 is visited; that of 3
        // above it, by a straight step after a diagonal one, is √2 + 1.
        name: "an equal limit by a diagonal step", rows: 3, cols: 4,
        codes: &[2, 0, 0, 4, 0, 2, 0, 8, 0, 0, 4, 0],
        accumulation: &[1, 0, 0, 1, 0, 2, 0, 2, 0, 0, 5, 0],
        outlets: &[10],
        answers: &[answer(5, (0, 2), &[0], 4, 1)],
    },
    Trap {
        // 3√2 is longer than 4. With a straight step for the diagonal one, 1 + 2√2
        // is not, and the longest path is lost.
        name: "three diagonals after four straight steps", rows: 4, cols: 8,
        codes: &[
            2, 0, 0, 0, 0, 0, 0, 0,
            0, 2, 0, 0, 0, 0, 0, 0,
            0, 0, 2, 0, 0, 0, 0, 0,
            0, 0, 0, 4, 16, 16, 16, 16,
        ],
        accumulation: &[
            1, 0, 0, 0, 0, 0, 0, 0,
            0, 2, 0, 0, 0, 0, 0, 0,
            0, 0, 3, 0, 0, 0, 0, 0,
            0, 0, 0, 8, 4, 3, 2, 1,
        ],
        outlets: &[27],
        answers: &[answer(8, (0, 3), &[0], 8, 0)],
    },
    Trap {
        // A fan of eight cells to the west: 1 + 7√2 is shorter than 11, as 98 is
        // less than 100, and all go at once. 8√2 is longer.
        name: "a fan by a straight step after eleven", rows: 3, cols: 14,
        codes: &[
            2, 4, 8, 0, 0, 0, 0, 0, 0, 0, 0, 0, 0, 0,
            1, 1, 128, 16, 16, 16, 16, 16, 16, 16, 16, 16, 16, 16,
            128, 64, 32, 0, 0, 0, 0, 0, 0, 0, 0, 0, 0, 0,
        ],
        accumulation: &[
            1, 1, 1, 0, 0, 0, 0, 0, 0, 0, 0, 0, 0, 0,
            1, 8, 20, 11, 10, 9, 8, 7, 6, 5, 4, 3, 2, 1,
            1, 1, 1, 0, 0, 0, 0, 0, 0, 0, 0, 0, 0, 0,
        ],
        outlets: &[16],
        answers: &[answer(20, (11, 0), &[27], 12, 8)],
    },
    Trap {
        // The same after ten: 1 + 7√2 is longer, and the fan's middle is visited.
        // 7√2, without the step, is shorter.
        name: "a fan by a straight step after ten", rows: 3, cols: 13,
        codes: &[
            2, 4, 8, 0, 0, 0, 0, 0, 0, 0, 0, 0, 0,
            1, 1, 128, 16, 16, 16, 16, 16, 16, 16, 16, 16, 16,
            128, 64, 32, 0, 0, 0, 0, 0, 0, 0, 0, 0, 0,
        ],
        accumulation: &[
            1, 1, 1, 0, 0, 0, 0, 0, 0, 0, 0, 0, 0,
            1, 8, 19, 10, 9, 8, 7, 6, 5, 4, 3, 2, 1,
            1, 1, 1, 0, 0, 0, 0, 0, 0, 0, 0, 0, 0,
        ],
        outlets: &[15],
        answers: &[answer(19, (10, 0), &[25], 12, 7)],
    },
    Trap {
        // A fan of eight cells to the south-west: 8√2 is longer than 11, and its
        // middle is visited. 1 + 7√2, the step taken as straight, is shorter.
        name: "a fan by a diagonal step after eleven", rows: 3, cols: 14,
        codes: &[
            2, 4, 64, 16, 16, 16, 16, 16, 16, 16, 16, 16, 16, 16,
            1, 128, 16, 0, 0, 0, 0, 0, 0, 0, 0, 0, 0, 0,
            128, 64, 32, 0, 0, 0, 0, 0, 0, 0, 0, 0, 0, 0,
        ],
        accumulation: &[
            1, 1, 20, 11, 10, 9, 8, 7, 6, 5, 4, 3, 2, 1,
            1, 8, 1, 0, 0, 0, 0, 0, 0, 0, 0, 0, 0, 0,
            1, 1, 1, 0, 0, 0, 0, 0, 0, 0, 0, 0, 0, 0,
        ],
        outlets: &[2],
        answers: &[answer(20, (11, 0), &[13], 13, 7)],
    },
    Trap {
        // The same after twelve: 8√2 is shorter, and all go at once. 9√2, with n
        // for n − 1, is longer.
        name: "a fan by a diagonal step after twelve", rows: 3, cols: 15,
        codes: &[
            2, 4, 64, 16, 16, 16, 16, 16, 16, 16, 16, 16, 16, 16, 16,
            1, 128, 16, 0, 0, 0, 0, 0, 0, 0, 0, 0, 0, 0, 0,
            128, 64, 32, 0, 0, 0, 0, 0, 0, 0, 0, 0, 0, 0, 0,
        ],
        accumulation: &[
            1, 1, 21, 12, 11, 10, 9, 8, 7, 6, 5, 4, 3, 2, 1,
            1, 8, 1, 0, 0, 0, 0, 0, 0, 0, 0, 0, 0, 0, 0,
            1, 1, 1, 0, 0, 0, 0, 0, 0, 0, 0, 0, 0, 0, 0,
        ],
        outlets: &[2],
        answers: &[answer(21, (12, 0), &[14], 13, 8)],
    },
    Trap {
        // 2 has one cell, since 1 is an outlet: its limit is 1, shorter than 2.
        // With its three cells of accumulation it would be entered.
        name: "an upper outlet shortens the limit", rows: 1, cols: 6,
        codes: &[1, 1, 1, 4, 16, 16],
        accumulation: &[1, 2, 3, 6, 2, 1],
        outlets: &[3, 1],
        answers: &[
            answer(4, (2, 0), &[5], 3, 1),
            answer(2, (1, 0), &[0], 2, 0),
        ],
    },
];
