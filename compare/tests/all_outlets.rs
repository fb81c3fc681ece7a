//! The entry for all outlets of a list: its numbers, in order, and what it leaves; and the part of
//! the starts that is one outlet's.

use second_reading::entries::{self, Kind, Terrain, MOST_SIDE};
use second_reading::ground::Ground;
use second_reading::random::Random;

/// What a lent slice holds before a call.
const UNTOUCHED: u32 = 0xDEAD_BEEF;

/// What a call lends: grid, list of starts, counts, working space.
#[derive(Clone, Debug, PartialEq)]
struct Lent {
    grid: Vec<u32>,
    starts: Vec<u32>,
    counts: Vec<u32>,
    work: Vec<u32>,
}

fn lent([grid, starts, counts, work]: [usize; 4]) -> Lent {
    let untouched = |places| vec![UNTOUCHED; places];
    Lent {
        grid: untouched(grid),
        starts: untouched(starts),
        counts: untouched(counts),
        work: untouched(work),
    }
}

/// By edition 1.
fn called(terrain: Terrain, outlets: &[u32], lent: &mut Lent) -> (u32, [u32; 2]) {
    called_by(1, terrain, outlets, lent)
}

fn called_by(edition: u32, terrain: Terrain, outlets: &[u32], lent: &mut Lent) -> (u32, [u32; 2]) {
    let Lent { grid, starts, counts, work } = lent;
    let answer = entries::trace_all(edition, terrain, outlets, grid, starts, counts, work);
    (answer.number(), answer.sums())
}

/// M5's ground with a corner null, to the west of 7. To 7 flow 4 and 8, to 4 all others.
const TERRAIN: Terrain = Terrain {
    rows: 3,
    cols: 3,
    codes: &[2, 4, 8, 1, 4, 16, 0, 4, 16],
    accumulation: &[1, 1, 1, 1, 6, 1, 0, 8, 1],
};

/// Its subaccumulation under 4 and 7.
const CUT: [u32; 9] = [1, 1, 1, 1, 6, 1, 0, 2, 1];

/// With the first places changed.
fn overlaid(places: &[u32], untouched: usize) -> Vec<u32> {
    [places, &vec![UNTOUCHED; untouched]].concat()
}

#[test]
fn starts_run_together_in_the_order_of_the_list() {
    // To 4 the corners 0 and 2 are longest, and 1 between them is dropped.
    for (outlets, starts, counts) in [([7, 4], [8, 0, 2], [1, 2]), ([4, 7], [0, 2, 8], [2, 1])] {
        let mut left = lent([9, 3, 2, 18]);
        assert_eq!(called(TERRAIN, &outlets, &mut left), (0, [7, 1]));
        assert_eq!((left.grid, left.work), (CUT.to_vec(), vec![0; 18]));
        assert_eq!((left.starts, left.counts), (starts.to_vec(), counts.to_vec()));
        // Places beyond are kept.
        let mut left = lent([11, 7, 5, 20]);
        assert_eq!(called(TERRAIN, &outlets, &mut left), (0, [7, 1]));
        assert_eq!(left.grid, overlaid(&CUT, 2));
        assert_eq!(left.starts, overlaid(&starts, 4));
        assert_eq!(left.counts, overlaid(&counts, 3));
        assert_eq!(left.work, overlaid(&[0; 18], 2));
    }
}

#[test]
fn the_working_space_is_for_the_largest_listed() {
    // Of the lane's cells the last has five above the outlet 0, but is none itself.
    let codes = &[1; 6];
    let terrain = Terrain { rows: 1, cols: 6, codes, accumulation: &[1, 2, 3, 4, 5, 6] };
    for (outlets, starts, work, sums) in
        [(&[0][..], &[0][..], 3, [1, 0]), (&[3, 1], &[2, 0], 6, [4, 0])]
    {
        let mut left = lent([6, outlets.len(), outlets.len(), work]);
        assert_eq!(called(terrain, outlets, &mut left), (0, sums));
        assert_eq!((&left.starts[..], left.work), (starts, vec![0; work]));
        let mut left = lent([6, outlets.len(), outlets.len(), work - 1]);
        assert_eq!(called(terrain, outlets, &mut left), (20, [0, 0]));
    }
}

#[test]
fn late_refusals() {
    let refused = |due, sums, rooms: [usize; 4], zeros| {
        let mut left = lent(rooms);
        let before = left.clone();
        assert_eq!(called(TERRAIN, &[4, 7], &mut left), (due, sums));
        let [_, _, _, work] = rooms;
        let work = overlaid(&vec![0; zeros], work - zeros);
        assert_eq!(left, Lent { grid: CUT.to_vec(), work, ..before });
    };
    // Each call has what the later ones are refused for, too.
    for (starts, counts) in [(3, 2), (2, 2), (3, 1), (0, 0)] {
        refused(20, [0, 0], [9, starts, counts, 17], 0);
        refused(20, [0, 0], [9, starts, counts, 0], 0);
    }
    for starts in [3, 2, 0] {
        refused(23, [0, 0], [9, starts, 1, 18], 0);
        refused(23, [0, 0], [9, starts, 0, 20], 0);
    }
    // Two places would do for the first outlet.
    for starts in [2, 1, 0] {
        refused(21, [7, 1], [9, starts, 2, 18], 18);
        refused(21, [7, 1], [9, starts, 9, 21], 18);
    }
}

#[test]
fn early_refusals_change_nothing() {
    let refused = |due: u32, terrain: Terrain, outlets: &[u32], grid: usize| {
        for rooms in [[grid, 3, 2, 18], [grid, 0, 0, 0]] {
            let mut left = lent(rooms);
            assert_eq!(called(terrain, outlets, &mut left), (due, [0, 0]));
            assert_eq!(left, lent(rooms));
        }
    };
    // Each call has what the later ones are refused for, too.
    let codes = &[2, 4, 8, 1, 4, 3, 0, 4, 16];
    let wrong = Terrain { accumulation: &[1, 1, 1, 1, 6, 1, 0, 9, 1], ..TERRAIN };
    let bad = Terrain { codes, ..wrong };
    for side in [0, MOST_SIDE + 1, usize::MAX] {
        refused(10, Terrain { rows: side, ..bad }, &[], 8);
        refused(10, Terrain { cols: side, ..bad }, &[], 8);
    }
    refused(11, bad, &[], 8);
    refused(11, Terrain { codes: &codes[..8], ..bad }, &[], 9);
    refused(11, Terrain { accumulation: &wrong.accumulation[..8], ..bad }, &[], 9);
    refused(12, bad, &[], 9);
    refused(14, wrong, &[], 9);
    refused(15, TERRAIN, &[], 9);
    refused(15, TERRAIN, &[6; 257], 9);
    refused(16, TERRAIN, &[7, 7, 6], 9);
    refused(16, TERRAIN, &[7, 7, 9], 9);
    refused(17, TERRAIN, &[7, 4, 7], 9);
    // 25 comes before all of them.
    for edition in [0, 3, 257, 1 << 31 | 2, u32::MAX] {
        for terrain in [TERRAIN, bad, Terrain { rows: 0, ..bad }] {
            let mut left = lent([8, 0, 0, 0]);
            assert_eq!(called_by(edition, terrain, &[], &mut left), (25, [0, 0]));
            assert_eq!(left, lent([8, 0, 0, 0]));
        }
    }
}

/// What one tracing by that edition gives for each outlet: starts, counts, and the two sums.
fn one_by_one(edition: u32, terrain: Terrain, outlets: &[u32]) -> (Vec<u32>, Vec<u32>, [u32; 2]) {
    let cells = terrain.codes.len();
    let (mut starts, mut counts, mut sums) = (Vec::new(), Vec::new(), [0; 2]);
    for place in 0..outlets.len() {
        let Lent { mut grid, starts: mut list, mut work, .. } = lent([cells, cells, 0, 3 * cells]);
        let tracing = entries::trace_by_stack(
            edition, terrain, outlets, place, true, &mut grid, &mut list, &mut work,
        );
        let Kind::Found { paths, .. } = tracing.kind else { panic!("{tracing:?}") };
        starts.extend_from_slice(&list[..paths as usize]);
        counts.push(paths);
        sums = [sums[0] + tracing.visited, sums[1] + tracing.dropped];
    }
    (starts, counts, sums)
}

#[test]
fn all_at_once_is_one_after_the_other() {
    let mut random = Random::new(6);
    let mut ties = 0;
    for _ in 0..1000 {
        let (rows, cols) = (random.between(1, 9), random.between(1, 9));
        // To the east or south alone, so that there is no ring.
        let codes: Vec<u8> =
            (0..rows * cols).map(|_| random.pick(&[0, 1, 2, 2, 4, 4, 4, 8, 8, 255])).collect();
        let ground = Ground::new(rows, cols, &codes);
        let mut outlets: Vec<u32> = ground.solid().map(|cell| cell as u32).collect();
        random.shuffle(&mut outlets);
        outlets.truncate(random.between(1, 12));
        if outlets.is_empty() {
            continue;
        }
        let accumulation = &ground.accumulation()[..];
        let terrain = Terrain { rows, cols, codes: &codes, accumulation };
        let edition = random.pick(&[1, 2]);
        let (starts, counts, sums) = one_by_one(edition, terrain, &outlets);
        let cells = codes.len();
        let mut left = lent([cells, starts.len(), counts.len(), 3 * cells]);
        assert_eq!(called_by(edition, terrain, &outlets, &mut left), (0, sums));
        assert_eq!((&left.starts, &left.counts), (&starts, &counts));
        let mut left = lent([cells, starts.len() - 1, counts.len(), 3 * cells]);
        assert_eq!(called_by(edition, terrain, &outlets, &mut left), (21, sums));
        assert!(sums[0] + sums[1] <= ground.solid().count() as u32);
        // The part for each outlet is its own list.
        let mut from = 0;
        for (choice, &count) in counts.iter().enumerate() {
            let to = from + count as usize;
            assert_eq!(entries::starts_of(&starts, &counts, choice), from..to);
            from = to;
        }
        ties += usize::from(starts.len() > counts.len());
    }
    assert!(ties > 30, "{ties}");
}

#[test]
fn parts() {
    let starts = [10, 11, 12, 13, 14];
    let part = |counts: &[u32], choice| entries::starts_of(&starts, counts, choice);
    assert_eq!(part(&[2, 3], 0), 0..2);
    assert_eq!(part(&[2, 3], 1), 2..5, "up to the end");
    assert_eq!(part(&[2, 4], 1), 0..0, "one past the end, by its own count");
    assert_eq!(part(&[2, 4], 0), 0..2, "what comes after does not count");
    assert_eq!(part(&[6], 0), 0..0, "past the end alone");
    assert_eq!(part(&[5], 0), 0..5);
    for choice in [2, 3, 1 << 32, usize::MAX] {
        assert_eq!(part(&[2, 3], choice), 0..0, "outside the counts");
    }
    assert_eq!(part(&[], 0), 0..0);
    assert_eq!(part(&[2, 0, 3], 1), 0..0, "a count of 0");
    assert_eq!(part(&[2, 0, 3], 2), 2..5);
    assert_eq!(part(&[6, 0], 1), 0..0, "past the end before its own");
    // Sums of more than 32 bits, which in 32 would be 0, 1 and 3.
    assert_eq!(part(&[u32::MAX, 1, 3], 1), 0..0);
    assert_eq!(part(&[u32::MAX, 1, 3], 2), 0..0);
    assert_eq!(part(&[1 << 31, 1 << 31, 1, 2], 3), 0..0);
    assert_eq!(part(&[u32::MAX; 1000], 999), 0..0);
    assert_eq!(part(&[&[0; 300][..], &[4]].concat(), 300), 0..4);
    assert_eq!(entries::starts_of(&[], &[0, 1], 0), 0..0);
    assert_eq!(entries::starts_of(&[], &[0, 1], 1), 0..0);
}
