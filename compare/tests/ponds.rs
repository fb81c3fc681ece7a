//! Ponds as outlets, beside outlets and beside each other, each case as calls of the entries.

mod cases;

use cases::{Case, UNTOUCHED};
use second_reading::entries;
use second_reading::Refusal;

/// M3 with a pond at the outlet.
const M3: Case =
    Case { rows: 1, cols: 4, codes: &[1, 255, 16, 16], accumulation: &[1, 4, 2, 1], outlets: &[1] };

/// A pond amidst eight inflows.
const EIGHT: Case = Case {
    rows: 3,
    cols: 3,
    codes: &[2, 4, 8, 1, 255, 16, 128, 64, 32],
    accumulation: &[1, 1, 1, 1, 9, 1, 1, 1, 1],
    outlets: &[4],
};

/// 0 and 2 flow to the pond 1, which is no outlet, and 4 to the pond 3, which is one.
const TWO: Case = Case {
    rows: 1,
    cols: 5,
    codes: &[1, 255, 16, 255, 16],
    accumulation: &[1, 3, 1, 2, 1],
    outlets: &[3],
};

#[test]
fn a_pond_alone() {
    let case = Case { rows: 1, cols: 1, codes: &[255], accumulation: &[1], outlets: &[0] };
    case.accumulates();
    assert_eq!(case.has_longest(0, (0, 0), &[0]), (1, 0));
}

#[test]
fn paths_end_at_a_pond_outlet_like_any_other() {
    M3.accumulates();
    assert_eq!(M3.has_longest(0, (2, 0), &[3]), (3, 1));
    EIGHT.accumulates();
    assert_eq!(EIGHT.has_longest(0, (0, 1), &[8, 6, 0, 2]), (6, 3));
}

#[test]
fn a_pond_fed_only_by_outlets_is_a_headwater() {
    let case = Case { outlets: &[1, 2, 0], ..TWO };
    let (_, _, grid) = case.traced(1, 0, true, 1);
    assert_eq!(grid, [1, 1, 1, 2, 1]);
    assert_eq!(case.has_longest(0, (0, 0), &[1]), (1, 0));
}

#[test]
fn a_pond_that_is_no_outlet_has_no_subwatershed() {
    TWO.accumulates();
    let (_, _, grid) = TWO.traced(1, 0, true, 1);
    assert_eq!(grid, TWO.accumulation);
    assert_eq!(TWO.has_longest(0, (1, 0), &[4]), (2, 0));
    for start in 0..3 {
        let mut places = [UNTOUCHED; 5];
        let answer = entries::draw(TWO.terrain(), TWO.outlets, 0, start, &mut places);
        assert_eq!(answer.err(), Some(Refusal(22)));
        assert_eq!(places, [UNTOUCHED; 5]);
    }
    let mut grids = [[UNTOUCHED; 5]; 4];
    let lent = grids.each_mut().map(|grid| &mut grid[..]);
    assert_eq!(entries::flow_lengths(TWO.terrain(), TWO.outlets, lent), Ok(()));
    assert_eq!(grids, [[0, 0, 0, 0, 1], [0; 5], [0, 0, 0, 1, 0], [0; 5]]);
}

#[test]
fn a_path_is_drawn_up_to_the_pond() {
    let mut places = [UNTOUCHED; 4];
    let drawn = entries::draw(M3.terrain(), M3.outlets, 0, 3, &mut places).unwrap();
    assert_eq!(*drawn, [3, 2, 1]);
    let drawn = entries::draw(M3.terrain(), M3.outlets, 0, 1, &mut places).unwrap();
    assert_eq!(*drawn, [1]);
}

#[test]
fn accumulations_that_do_not_agree_at_a_pond() {
    // The pond as null ground, and as one that flows on to the east or to all sides.
    for accumulation in [&[1, 0, 1, 1, 1], &[1, 3, 4, 2, 1], &[4, 3, 4, 2, 3]] {
        let case = Case { accumulation, ..TWO };
        assert_eq!(entries::check_accumulation(case.terrain()), Err(Refusal(14)));
    }
}

#[test]
fn a_byte_beside_a_ponds_is_no_code() {
    for byte in [254, 253, 127] {
        let codes = [1, byte];
        let mut accumulation = [UNTOUCHED; 2];
        assert_eq!(entries::accumulate(1, 2, &codes, &mut accumulation), Err(Refusal(12)));
        assert_eq!(accumulation, [UNTOUCHED; 2]);
    }
}
