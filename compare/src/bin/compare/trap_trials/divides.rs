//! The traps for starts on the divide.

use super::trap::{answer, Answer, Trap};

/// What makes a divide cell of one amidst the ground. Every headwater is on the divide, so that both
/// editions give the same.
#[rustfmt::skip]
pub const OUTSIDE: [Trap; 9] = [
    Trap {
        // With 4 an outlet, all cells of 2 are beside it or at the edge.
        name: "a snail around an outlet", rows: 3, cols: 3,
        codes: &[1, 1, 64, 64, 1, 4, 64, 16, 16],
        accumulation: &[7, 8, 9, 6, 1, 2, 5, 4, 3],
        outlets: &[2, 4],
        answers: &[
            answer(8, (7, 0), &[5], 8, 0),
            answer(1, (0, 0), &[4], 1, 0),
        ],
    },
    Trap {
        // 6 is beside an upper outlet, by which alone it is fed.
        name: "an inner cell beside an upper outlet", rows: 3, cols: 4,
        codes: &[
            1, 1, 1, 64,
            64, 1, 1, 4,
            64, 16, 16, 16,
        ],
        accumulation: &[
            9, 10, 11, 12,
            8, 1, 2, 3,
            7, 6, 5, 4,
        ],
        outlets: &[3, 5],
        answers: &[
            answer(11, (10, 0), &[6], 11, 0),
            answer(1, (0, 0), &[5], 1, 0),
        ],
    },
    Trap {
        // 11 is beside 12, a cell of the upper outlet 13, and not beside 13.
        name: "an inner cell beside an upper outlet's cell", rows: 4, cols: 5,
        codes: &[
            1, 1, 1, 1, 64,
            64, 1, 1, 1, 4,
            64, 64, 1, 1, 4,
            64, 16, 16, 16, 16,
        ],
        accumulation: &[
            16, 17, 18, 19, 20,
            15, 2, 3, 4, 5,
            14, 1, 1, 2, 8,
            13, 12, 11, 10, 9,
        ],
        outlets: &[4, 13],
        answers: &[
            answer(18, (17, 0), &[11], 18, 0),
            answer(2, (1, 0), &[12], 2, 0),
        ],
    },
    Trap {
        // 6 is beside a null cell.
        name: "an inner cell beside a null cell", rows: 3, cols: 4,
        codes: &[
            1, 1, 1, 64,
            64, 0, 1, 4,
            64, 16, 16, 16,
        ],
        accumulation: &[
            8, 9, 10, 11,
            7, 0, 1, 2,
            6, 5, 4, 3,
        ],
        outlets: &[3],
        answers: &[answer(11, (10, 0), &[6], 11, 0)],
    },
    Trap {
        // 6 is beside a pond that is of no subwatershed.
        name: "an inner cell beside a pond that is no outlet", rows: 3, cols: 4,
        codes: &[
            1, 1, 1, 64,
            64, 255, 1, 4,
            64, 16, 16, 16,
        ],
        accumulation: &[
            8, 9, 10, 11,
            7, 1, 1, 2,
            6, 5, 4, 3,
        ],
        outlets: &[3],
        answers: &[answer(11, (10, 0), &[6], 11, 0)],
    },
    Trap {
        // 4 has a single neighbour outside, the corner 0, and that diagonally.
        name: "a snail without a corner", rows: 3, cols: 3,
        codes: &[0, 1, 64, 128, 1, 4, 64, 16, 16],
        accumulation: &[0, 7, 8, 6, 1, 2, 5, 4, 3],
        outlets: &[2],
        answers: &[answer(8, (6, 1), &[4], 8, 0)],
    },
    Trap {
        name: "a snail whose corner flows off", rows: 3, cols: 3,
        codes: &[64, 1, 64, 128, 1, 4, 64, 16, 16],
        accumulation: &[1, 7, 8, 6, 1, 2, 5, 4, 3],
        outlets: &[2],
        answers: &[answer(8, (6, 1), &[4], 8, 0)],
    },
    Trap {
        name: "a snail whose corner is an outlet", rows: 3, cols: 3,
        codes: &[1, 1, 64, 128, 1, 4, 64, 16, 16],
        accumulation: &[1, 8, 9, 6, 1, 2, 5, 4, 3],
        outlets: &[0, 2],
        answers: &[
            answer(1, (0, 0), &[0], 1, 0),
            answer(8, (6, 1), &[4], 8, 0),
        ],
    },
    Trap {
        // Neither the outlet nor the ring around it is on the divide. 2√2 is met at 24; of
        // each straight arm after it three cells are dropped.
        name: "a pond amidst two rings", rows: 5, cols: 5,
        codes: &[
            2, 2, 4, 8, 8,
            2, 2, 4, 8, 8,
            1, 1, 255, 16, 16,
            128, 128, 64, 32, 32,
            128, 128, 64, 32, 32,
        ],
        accumulation: &[
            1, 1, 1, 1, 1,
            1, 2, 4, 2, 1,
            1, 4, 25, 4, 1,
            1, 2, 4, 2, 1,
            1, 1, 1, 1, 1,
        ],
        outlets: &[12],
        answers: &[answer(25, (0, 2), &[24, 20, 0, 4], 16, 9)],
    },
];

/// A trap, whose own answers are by edition 1, and those by edition 2.
pub struct DivideTrap {
    pub trap: Trap,
    pub second: &'static [Answer],
}

impl DivideTrap {
    /// The trap with its answers by each edition.
    pub fn editions(&self) -> [(u32, Trap); 2] {
        [(1, self.trap), (2, Trap { answers: self.second, ..self.trap })]
    }
}

/// Ground with a headwater that is not on the divide.
#[rustfmt::skip]
pub const DIVIDES: [DivideTrap; 6] = [
    DivideTrap {
        // All cells around 4, the only headwater, are inside: it is visited and meets
        // nothing. 5, one step on, is at the edge.
        trap: Trap {
            name: "a snail", rows: 3, cols: 3,
            codes: &[1, 1, 64, 64, 1, 4, 64, 16, 16],
            accumulation: &[7, 8, 9, 6, 1, 2, 5, 4, 3],
            outlets: &[2],
            answers: &[answer(9, (8, 0), &[4], 9, 0)],
        },
        second: &[answer(9, (7, 0), &[5], 9, 0)],
    },
    DivideTrap {
        // Neither 5 nor 6 is on the divide.
        trap: Trap {
            name: "a snail around two cells", rows: 3, cols: 4,
            codes: &[
                1, 1, 1, 64,
                64, 1, 1, 4,
                64, 16, 16, 16,
            ],
            accumulation: &[
                9, 10, 11, 12,
                8, 1, 2, 3,
                7, 6, 5, 4,
            ],
            outlets: &[3],
            answers: &[answer(12, (11, 0), &[5], 12, 0)],
        },
        second: &[answer(12, (9, 0), &[7], 12, 0)],
    },
    DivideTrap {
        // 5 is at the eastern edge, though the numbers around its own are all inside.
        trap: Trap {
            name: "rows do not run on at the edge", rows: 4, cols: 3,
            codes: &[
                1, 1, 64,
                64, 1, 4,
                64, 64, 4,
                64, 16, 16,
            ],
            accumulation: &[
                10, 11, 12,
                9, 2, 3,
                8, 1, 4,
                7, 6, 5,
            ],
            outlets: &[2],
            answers: &[answer(12, (11, 0), &[7], 12, 0)],
        },
        second: &[answer(12, (9, 0), &[5], 12, 0)],
    },
    DivideTrap {
        // The corner 0 flows to 1 and is inside: 4 is not on the divide.
        trap: Trap {
            name: "a snail with its corner", rows: 3, cols: 3,
            codes: &[1, 1, 64, 128, 1, 4, 64, 16, 16],
            accumulation: &[1, 8, 9, 6, 1, 2, 5, 4, 3],
            outlets: &[2],
            answers: &[answer(9, (6, 1), &[4], 8, 1)],
        },
        second: &[answer(9, (5, 1), &[5], 8, 1)],
    },
    DivideTrap {
        // A snail to the east of the outlet 6, a lane of six cells to the west. 18, amidst
        // the snail, is 9 away, and 17 on the divide 8. The lane's limit is 1 + 5√2, shorter
        // than 9 and longer than 8; that of its second cell is 2 + 4√2, shorter than both.
        trap: Trap {
            name: "a lane that edition 1 alone drops", rows: 3, cols: 10,
            codes: &[
                1, 1, 1, 1, 1, 1, 64, 16, 16, 16,
                0, 0, 0, 0, 0, 0, 0, 4, 16, 64,
                0, 0, 0, 0, 0, 0, 0, 1, 1, 64,
            ],
            accumulation: &[
                1, 2, 3, 4, 5, 6, 16, 9, 8, 7,
                0, 0, 0, 0, 0, 0, 0, 2, 1, 6,
                0, 0, 0, 0, 0, 0, 0, 3, 4, 5,
            ],
            outlets: &[6],
            answers: &[answer(16, (9, 0), &[18], 10, 6)],
        },
        second: &[answer(16, (8, 0), &[17], 11, 5)],
    },
    DivideTrap {
        // The same with a lane of eight cells, whose last ties with 21, no headwater. After 9
        // its sixth is dropped, at 6 + 2√2.
        trap: Trap {
            name: "a lane that ties on the divide", rows: 3, cols: 12,
            codes: &[
                1, 1, 1, 1, 1, 1, 1, 1, 64, 16, 16, 16,
                0, 0, 0, 0, 0, 0, 0, 0, 0, 4, 16, 64,
                0, 0, 0, 0, 0, 0, 0, 0, 0, 1, 1, 64,
            ],
            accumulation: &[
                1, 2, 3, 4, 5, 6, 7, 8, 18, 9, 8, 7,
                0, 0, 0, 0, 0, 0, 0, 0, 0, 2, 1, 6,
                0, 0, 0, 0, 0, 0, 0, 0, 0, 3, 4, 5,
            ],
            outlets: &[8],
            answers: &[answer(18, (9, 0), &[22], 15, 3)],
        },
        second: &[answer(18, (8, 0), &[21, 0], 18, 0)],
    },
];
