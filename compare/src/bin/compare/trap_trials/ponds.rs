//! The traps with ponds. A pond's byte has all bits set, so that a mistake can
//! take it for any direction, or for all at once. Every headwater is on the
//! divide, so that both editions give the same.

use super::trap::{answer, Trap};

#[rustfmt::skip]
pub const PONDS: [Trap; 21] = [
    Trap {
        name: "a pond alone", rows: 1, cols: 1,
        codes: &[255],
        accumulation: &[1],
        outlets: &[0],
        answers: &[answer(1, (0, 0), &[0], 1, 0)],
    },
    Trap {
        name: "M2 into a pond", rows: 1, cols: 3,
        codes: &[1, 255, 16],
        accumulation: &[1, 3, 1],
        outlets: &[1],
        answers: &[answer(3, (1, 0), &[2, 0], 3, 0)],
    },
    Trap {
        name: "M3 into a pond", rows: 1, cols: 4,
        codes: &[1, 255, 16, 16],
        accumulation: &[1, 4, 2, 1],
        outlets: &[1],
        answers: &[answer(4, (2, 0), &[3], 3, 1)],
    },
    Trap {
        name: "M5 into a pond", rows: 3, cols: 3,
        codes: &[2, 4, 8, 1, 4, 16, 1, 255, 16],
        accumulation: &[1, 1, 1, 1, 6, 1, 1, 9, 1],
        outlets: &[7, 4],
        answers: &[
            answer(3, (1, 0), &[8, 6], 3, 0),
            answer(6, (0, 1), &[0, 2], 5, 1),
        ],
    },
    Trap {
        // √2 is met at 8 and is every later diagonal limit; 7, 3 and 1 are dropped.
        name: "eight inflows to a pond", rows: 3, cols: 3,
        codes: &[2, 4, 8, 1, 255, 16, 128, 64, 32],
        accumulation: &[1, 1, 1, 1, 9, 1, 1, 1, 1],
        outlets: &[4],
        answers: &[answer(9, (0, 1), &[8, 6, 0, 2], 6, 3)],
    },
    Trap {
        // After six short inflows, 8 and 5 of them dropped, the last, at 6, leads
        // farther.
        name: "a late longer path into a pond", rows: 4, cols: 4,
        codes: &[0, 0, 0, 8, 2, 4, 8, 0, 1, 255, 16, 0, 128, 0, 32, 0],
        accumulation: &[0, 0, 0, 1, 1, 1, 2, 0, 1, 9, 1, 0, 1, 0, 1, 0],
        outlets: &[9],
        answers: &[answer(9, (0, 2), &[3], 7, 2)],
    },
    Trap {
        name: "five inflows to a pond at the edge", rows: 2, cols: 3,
        codes: &[1, 255, 16, 128, 64, 32],
        accumulation: &[1, 6, 1, 1, 1, 1],
        outlets: &[1],
        answers: &[answer(6, (0, 1), &[5, 3], 4, 2)],
    },
    Trap {
        name: "three inflows to a pond in the corner", rows: 2, cols: 2,
        codes: &[255, 16, 64, 32],
        accumulation: &[4, 1, 1, 1],
        outlets: &[0],
        answers: &[answer(4, (0, 1), &[3], 3, 1)],
    },
    Trap {
        name: "a spiral into a pond", rows: 3, cols: 3,
        codes: &[1, 1, 4, 1, 255, 4, 64, 16, 16],
        accumulation: &[1, 2, 3, 8, 9, 4, 7, 6, 5],
        outlets: &[4],
        answers: &[answer(9, (8, 0), &[0], 9, 0)],
    },
    Trap {
        // Four to the east; 1 + √2 is shorter, so both western cells go at once.
        name: "a drop above a pond", rows: 1, cols: 7,
        codes: &[1, 1, 255, 16, 16, 16, 16],
        accumulation: &[1, 2, 7, 4, 3, 2, 1],
        outlets: &[2],
        answers: &[answer(7, (4, 0), &[6], 5, 2)],
    },
    Trap {
        // 3 is a headwater: the pond does not flow on to it.
        name: "a walk to the east ends at a pond", rows: 1, cols: 5,
        codes: &[1, 1, 255, 1, 1],
        accumulation: &[1, 2, 3, 1, 2],
        outlets: &[2, 4],
        answers: &[
            answer(3, (2, 0), &[0], 3, 0),
            answer(2, (1, 0), &[3], 2, 0),
        ],
    },
    Trap {
        name: "a walk to the north ends at a pond", rows: 5, cols: 1,
        codes: &[64, 64, 255, 64, 64],
        accumulation: &[2, 1, 3, 2, 1],
        outlets: &[0, 2],
        answers: &[
            answer(2, (1, 0), &[1], 2, 0),
            answer(3, (2, 0), &[4], 3, 0),
        ],
    },
    Trap {
        name: "a pond below a pond", rows: 4, cols: 1,
        codes: &[4, 255, 255, 64],
        accumulation: &[1, 2, 2, 1],
        outlets: &[1, 2],
        answers: &[
            answer(2, (1, 0), &[0], 2, 0),
            answer(2, (1, 0), &[3], 2, 0),
        ],
    },
    Trap {
        name: "ponds alone", rows: 2, cols: 2,
        codes: &[255, 255, 255, 255],
        accumulation: &[1, 1, 1, 1],
        outlets: &[3, 0, 1, 2],
        answers: &[
            answer(1, (0, 0), &[3], 1, 0),
            answer(1, (0, 0), &[0], 1, 0),
            answer(1, (0, 0), &[1], 1, 0),
            answer(1, (0, 0), &[2], 1, 0),
        ],
    },
    Trap {
        name: "a cell amidst ponds", rows: 3, cols: 3,
        codes: &[255, 255, 255, 255, 4, 255, 255, 255, 255],
        accumulation: &[1, 1, 1, 1, 1, 1, 1, 2, 1],
        outlets: &[7, 0],
        answers: &[
            answer(2, (1, 0), &[4], 2, 0),
            answer(1, (0, 0), &[0], 1, 0),
        ],
    },
    Trap {
        name: "an outlet amidst ponds", rows: 3, cols: 3,
        codes: &[255, 255, 255, 255, 4, 255, 255, 255, 255],
        accumulation: &[1, 1, 1, 1, 1, 1, 1, 2, 1],
        outlets: &[4, 7, 3],
        answers: &[
            answer(1, (0, 0), &[4], 1, 0),
            answer(1, (0, 0), &[7], 1, 0),
            answer(1, (0, 0), &[3], 1, 0),
        ],
    },
    Trap {
        // The walk from 0 ends before the null cell, that from 3 at the pond.
        name: "a pond beside null cells", rows: 1, cols: 5,
        codes: &[1, 0, 255, 16, 0],
        accumulation: &[1, 0, 2, 1, 0],
        outlets: &[0, 2],
        answers: &[
            answer(1, (0, 0), &[0], 1, 0),
            answer(2, (1, 0), &[3], 2, 0),
        ],
    },
    Trap {
        name: "a pond in null ground", rows: 3, cols: 3,
        codes: &[0, 0, 0, 0, 255, 0, 0, 0, 0],
        accumulation: &[0, 0, 0, 0, 1, 0, 0, 0, 0],
        outlets: &[4],
        answers: &[answer(1, (0, 0), &[4], 1, 0)],
    },
    Trap {
        // The pond 2 and what drains there from the east is of no subwatershed.
        name: "a pond that is no outlet", rows: 1, cols: 5,
        codes: &[1, 1, 255, 16, 16],
        accumulation: &[1, 2, 5, 2, 1],
        outlets: &[1],
        answers: &[answer(2, (1, 0), &[0], 2, 0)],
    },
    Trap {
        name: "a pond fed only by outlets", rows: 1, cols: 5,
        codes: &[1, 1, 255, 16, 16],
        accumulation: &[1, 2, 5, 2, 1],
        outlets: &[2, 1, 3],
        answers: &[
            answer(1, (0, 0), &[2], 1, 0),
            answer(2, (1, 0), &[0], 2, 0),
            answer(2, (1, 0), &[4], 2, 0),
        ],
    },
    Trap {
        // 2, 7 and 12 lie between the ponds 6 and 8, and flow to one of them.
        // Straight inflows after a diagonal one are dropped: 13, 7 and 3 of 8, 5
        // and 1 of 6.
        name: "two ponds share the ground", rows: 3, cols: 5,
        codes: &[
            2, 4, 8, 4, 8,
            1, 255, 1, 255, 16,
            128, 64, 128, 64, 32,
        ],
        accumulation: &[
            1, 1, 1, 1, 1,
            1, 7, 1, 8, 1,
            1, 1, 1, 1, 1,
        ],
        outlets: &[8, 6],
        answers: &[
            answer(8, (0, 1), &[14, 12, 4], 5, 3),
            answer(7, (0, 1), &[10, 0, 2], 5, 2),
        ],
    },
];
