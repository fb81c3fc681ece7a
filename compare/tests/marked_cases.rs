//! The marked cases M1 to M11, each as calls of the entries.

mod cases;

use cases::{Case, UNTOUCHED};
use second_reading::entries::{self, Kind};
use second_reading::lengths::Length;
use second_reading::Refusal;

const M1: Case = Case { rows: 1, cols: 1, codes: &[1], accumulation: &[1], outlets: &[0] };
const M2: Case =
    Case { rows: 1, cols: 3, codes: &[1, 4, 16], accumulation: &[1, 3, 1], outlets: &[1] };
const M3: Case =
    Case { rows: 1, cols: 4, codes: &[1, 4, 16, 16], accumulation: &[1, 4, 2, 1], outlets: &[1] };
const M4: Case = Case {
    rows: 3,
    cols: 3,
    codes: &[2, 4, 8, 1, 4, 16, 1, 4, 16],
    accumulation: &[1, 1, 1, 1, 6, 1, 1, 9, 1],
    outlets: &[7],
};
const M5: Case = Case { outlets: &[7, 4], ..M4 };

#[test]
fn m1_an_outlet_that_is_a_headwater() {
    M1.accumulates();
    assert_eq!(M1.has_longest(0, (0, 0), &[0]), (1, 0));
}

#[test]
fn m2_east_before_west() {
    M2.accumulates();
    assert_eq!(M2.has_longest(0, (1, 0), &[2, 0]), (3, 0));
}

#[test]
fn m3_a_drop() {
    M3.accumulates();
    assert_eq!(M3.has_longest(0, (2, 0), &[3]), (3, 1));
}

#[test]
fn m4_diagonals() {
    M4.accumulates();
    assert_eq!(M4.has_longest(0, (1, 1), &[0, 2]), (8, 1));
}

#[test]
fn m5_an_upper_outlet() {
    let (_, _, grid) = M5.traced(1, 0, true, 2);
    assert_eq!((grid[7], grid[4]), (3, 6));
    assert_eq!(M5.has_longest(0, (1, 0), &[8, 6]), (3, 0));
    assert_eq!(M5.has_longest(1, (0, 1), &[0, 2]), (5, 1));
}

#[test]
fn m6_a_ring() {
    let mut accumulation = [UNTOUCHED; 3];
    assert_eq!(entries::accumulate(1, 2, &[1, 16], &mut accumulation), Err(Refusal(13)));
    assert_eq!(accumulation, [0, 0, UNTOUCHED]);
}

#[test]
fn m7_a_null_cell() {
    let mut accumulation = [UNTOUCHED; 2];
    assert_eq!(entries::accumulate(1, 2, &[1, 0], &mut accumulation), Ok(()));
    assert_eq!(accumulation, [1, 0]);
}

#[test]
fn m8_and_m9_lengths() {
    assert!(Length::new(7, 0) < Length::new(0, 5));
    assert!(Length::new(17, 0) > Length::new(0, 12));
}

#[test]
fn m10_a_wrong_accumulation() {
    let case = Case { accumulation: &[1, 3, 2], ..M2 };
    assert_eq!(entries::check_accumulation(case.terrain()), Err(Refusal(14)));
    let mut grid = [UNTOUCHED; 3];
    assert_eq!(entries::subaccumulate(case.terrain(), case.outlets, &mut grid), Err(Refusal(14)));
    assert_eq!(grid, [UNTOUCHED; 3]);
}

#[test]
fn m11_a_list_too_short() {
    for dropping in [false, true] {
        let (tracing, list, grid) = M2.traced(1, 0, dropping, 1);
        assert_eq!(tracing.kind, Kind::NoPlace { paths: 2 });
        assert_eq!((tracing.visited, tracing.dropped), (3, 0));
        assert_eq!(tracing.results(), [0, 0, 2, 3, 0]);
        assert_eq!(list, [2]);
        assert_eq!(grid, [1, 3, 1]);
    }
}

#[test]
fn drawing() {
    let mut places = [UNTOUCHED; 4];
    let drawn = entries::draw(M4.terrain(), M4.outlets, 0, 2, &mut places).unwrap();
    assert_eq!(*drawn, [2, 4, 7]);
    assert_eq!(places, [2, 4, 7, UNTOUCHED]);
    let refused = |case: &Case, place, start, room: usize| {
        let mut places = [UNTOUCHED; 4];
        let answer = entries::draw(case.terrain(), case.outlets, place, start, &mut places[..room]);
        let refusal = answer.err();
        assert_eq!(places, [UNTOUCHED; 4]);
        refusal
    };
    assert_eq!(refused(&M4, 1, 2, 4), Some(Refusal(18)));
    assert_eq!(refused(&M4, 0, 9, 4), Some(Refusal(22)));
    assert_eq!(refused(&M5, 0, 4, 4), Some(Refusal(22)));
    assert_eq!(refused(&M5, 1, 7, 4), Some(Refusal(22)));
    assert_eq!(refused(&M4, 0, 2, 2), Some(Refusal(23)));
}
