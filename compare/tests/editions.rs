//! Starts anywhere and on the divide, each case as calls of the entries.

mod cases;

use cases::{Case, UNTOUCHED};
use second_reading::entries::{self, Kind, Terrain};
use second_reading::Refusal;

/// The only headwater, 4, has all its neighbours inside.
const SNAIL: Case = Case {
    rows: 3,
    cols: 3,
    codes: &[1, 1, 64, 64, 1, 4, 64, 16, 16],
    accumulation: &[7, 8, 9, 6, 1, 2, 5, 4, 3],
    outlets: &[2],
};

/// The same around two cells, 6 and above it 5.
const LARGER_SNAIL: Case = Case {
    rows: 3,
    cols: 4,
    codes: &[1, 1, 1, 64, 64, 1, 1, 4, 64, 16, 16, 16],
    accumulation: &[9, 10, 11, 12, 8, 1, 2, 3, 7, 6, 5, 4],
    outlets: &[3],
};

#[test]
fn a_start_on_the_divide_need_not_be_a_headwater() {
    SNAIL.accumulates();
    assert_eq!(SNAIL.has_longest_by(1, 0, (8, 0), &[4]), (9, 0));
    assert_eq!(SNAIL.has_longest_by(2, 0, (7, 0), &[5]), (9, 0));
    LARGER_SNAIL.accumulates();
    assert_eq!(LARGER_SNAIL.has_longest_by(1, 0, (11, 0), &[5]), (12, 0));
    assert_eq!(LARGER_SNAIL.has_longest_by(2, 0, (9, 0), &[7]), (12, 0));
}

#[test]
fn upper_outlets_and_their_cells_are_outside() {
    let case = Case { outlets: &[3, 5], ..LARGER_SNAIL };
    assert_eq!(case.has_longest(0, (10, 0), &[6]), (11, 0));
    assert_eq!(case.has_longest(1, (0, 0), &[5]), (1, 0));
    // 11 is beside 12, a cell of the upper outlet 13, and not beside 13.
    let case = Case {
        rows: 4,
        cols: 5,
        codes: &[1, 1, 1, 1, 64, 64, 1, 1, 1, 4, 64, 64, 1, 1, 4, 64, 16, 16, 16, 16],
        accumulation: &[16, 17, 18, 19, 20, 15, 2, 3, 4, 5, 14, 1, 1, 2, 8, 13, 12, 11, 10, 9],
        outlets: &[4, 13],
    };
    case.accumulates();
    assert_eq!(case.has_longest(0, (17, 0), &[11]), (18, 0));
    assert_eq!(case.has_longest(1, (1, 0), &[12]), (2, 0));
    // With 13 no outlet, all around 11 and around 12 are inside. The first cell on the divide that
    // the walk from 11 comes to is 9, at the edge.
    let case = Case { outlets: &[4], ..case };
    assert_eq!(case.has_longest_by(1, 0, (17, 0), &[11]), (20, 0));
    assert_eq!(case.has_longest_by(2, 0, (13, 0), &[9]), (20, 0));
}

#[test]
fn null_cells_and_cells_of_no_subwatershed_are_outside() {
    let case = |middle, accumulation| Case {
        codes: match middle {
            0 => &[1, 1, 1, 64, 64, 0, 1, 4, 64, 16, 16, 16],
            _ => &[1, 1, 1, 64, 64, 255, 1, 4, 64, 16, 16, 16],
        },
        accumulation,
        ..LARGER_SNAIL
    };
    let null = case(0, &[8, 9, 10, 11, 7, 0, 1, 2, 6, 5, 4, 3]);
    let pond = case(255, &[8, 9, 10, 11, 7, 1, 1, 2, 6, 5, 4, 3]);
    for case in [null, pond] {
        case.accumulates();
        assert_eq!(case.has_longest(0, (10, 0), &[6]), (11, 0));
    }
}

#[test]
fn a_neighbour_outside_may_be_diagonal() {
    let codes = &[0, 1, 64, 128, 1, 4, 64, 16, 16];
    let case = Case { codes, accumulation: &[0, 7, 8, 6, 1, 2, 5, 4, 3], ..SNAIL };
    case.accumulates();
    assert_eq!(case.has_longest(0, (6, 1), &[4]), (8, 0));
    // The corner filled: it flows to 1 and is inside.
    let codes = &[1, 1, 64, 128, 1, 4, 64, 16, 16];
    let case = Case { codes, accumulation: &[1, 8, 9, 6, 1, 2, 5, 4, 3], ..SNAIL };
    case.accumulates();
    assert_eq!(case.has_longest_by(1, 0, (6, 1), &[4]), (8, 1));
    assert_eq!(case.has_longest_by(2, 0, (5, 1), &[5]), (8, 1));
    let case = Case { outlets: &[2, 0], ..case };
    assert_eq!(case.has_longest(0, (6, 1), &[4]), (8, 0));
}

#[test]
fn cells_at_the_edge_are_on_the_divide() {
    // One row, where each cell is on the divide below others, and one cell.
    let accumulation = &[1, 2, 3];
    let lane = Case { rows: 1, cols: 3, codes: &[1; 3], accumulation, outlets: &[2] };
    assert_eq!(lane.has_longest(0, (2, 0), &[0]), (3, 0));
    for code in [&[4], &[255]] {
        let alone = Case { rows: 1, cols: 1, codes: code, accumulation: &[1], outlets: &[0] };
        assert_eq!(alone.has_longest(0, (0, 0), &[0]), (1, 0));
    }
}

#[test]
fn a_pond_outlet_off_the_divide() {
    let case = Case {
        codes: &[2, 4, 8, 1, 255, 16, 128, 64, 32],
        accumulation: &[1, 1, 1, 1, 9, 1, 1, 1, 1],
        outlets: &[4],
        ..SNAIL
    };
    case.accumulates();
    assert_eq!(case.has_longest(0, (0, 1), &[8, 6, 0, 2]), (6, 3));
}

#[test]
fn a_headwater_off_the_divide_drops_nothing() {
    // 18, amidst a snail to the east of the outlet, is 9 away, and 17 on the divide 8. The lane of
    // six to the west has the limit 1 + 5√2 between them; its second cell has 2 + 4√2.
    let case = Case {
        rows: 3,
        cols: 10,
        codes: &[
            1, 1, 1, 1, 1, 1, 64, 16, 16, 16, //
            0, 0, 0, 0, 0, 0, 0, 4, 16, 64, //
            0, 0, 0, 0, 0, 0, 0, 1, 1, 64,
        ],
        accumulation: &[
            1, 2, 3, 4, 5, 6, 16, 9, 8, 7, //
            0, 0, 0, 0, 0, 0, 0, 2, 1, 6, //
            0, 0, 0, 0, 0, 0, 0, 3, 4, 5,
        ],
        outlets: &[6],
    };
    case.accumulates();
    assert_eq!(case.has_longest_by(1, 0, (9, 0), &[18]), (10, 6));
    assert_eq!(case.has_longest_by(2, 0, (8, 0), &[17]), (11, 5));
}

#[test]
fn a_list_too_short_by_edition_2() {
    for dropping in [false, true] {
        let (tracing, list, grid) = SNAIL.traced(2, 0, dropping, 0);
        assert_eq!((tracing.kind, list), (Kind::NoPlace { paths: 1 }, vec![]));
        assert_eq!(tracing.results(), [0, 0, 1, 9, 0]);
        assert_eq!(grid, SNAIL.accumulation);
    }
}

#[test]
fn numbers_of_no_edition_come_before_all_else() {
    let snail = SNAIL.terrain();
    let wrong = Terrain { rows: 0, codes: &[3], accumulation: &[], ..snail };
    for edition in [0, 3, 257, 258, 1 << 31 | 1, u32::MAX] {
        for (terrain, outlets, place) in [(snail, &[2][..], 0), (wrong, &[], 7)] {
            let (mut grid, mut list, mut work) = ([UNTOUCHED; 9], [UNTOUCHED], [UNTOUCHED; 27]);
            let by_stack = entries::trace_by_stack(
                edition, terrain, outlets, place, true, &mut grid, &mut list, &mut work,
            );
            let by_recursion = entries::trace_by_recursion(
                edition, terrain, outlets, place, true, &mut grid, &mut list,
            );
            for tracing in [by_stack, by_recursion] {
                assert_eq!(tracing.kind, Kind::Refused(Refusal(25)));
                assert_eq!(tracing.results(), [0; 5]);
            }
            assert_eq!((grid, list, work), ([UNTOUCHED; 9], [UNTOUCHED], [UNTOUCHED; 27]));
        }
    }
}
