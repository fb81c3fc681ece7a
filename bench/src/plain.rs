//! The plain C, called with slices.

/// Which neighbours of n cells a search drops, from a cell at length d.
#[repr(C)]
#[derive(Clone, Copy)]
pub enum Rule {
    None,
    /// By the limit d + n√2.
    First,
    /// By the limit d, the step and (n − 1)√2.
    Tight,
}

mod c {
    use super::Rule;

    #[repr(C)]
    pub struct Found {
        pub straight: u32,
        pub diagonal: u32,
        pub paths: u32,
        pub visited: u32,
        pub dropped: u32,
    }

    extern "C" {
        pub fn plain_look_around(
            rows: usize,
            cols: usize,
            codes: *const u8,
            accumulation: *mut u32,
        ) -> u32;

        pub fn plain_inflow_count(
            rows: usize,
            cols: usize,
            codes: *const u8,
            accumulation: *mut u32,
        ) -> u32;

        pub fn plain_equation(
            rows: usize,
            cols: usize,
            codes: *const u8,
            accumulation: *const u32,
        ) -> u32;

        pub fn plain_convert(
            from: u32,
            to: u32,
            rows: usize,
            cols: usize,
            codes: *const u8,
            converted: *mut u8,
        );

        pub fn plain_convert_judged(
            from: u32,
            to: u32,
            rows: usize,
            cols: usize,
            codes: *const u8,
            converted: *mut u8,
        ) -> u32;

        pub fn plain_subaccumulate(
            rows: usize,
            cols: usize,
            codes: *const u8,
            accumulation: *const u32,
            outlets: *const u32,
            count: usize,
            subaccumulation: *mut u32,
            marks: *mut u8,
        ) -> u32;

        pub fn plain_flow_lengths(
            rows: usize,
            cols: usize,
            codes: *const u8,
            accumulation: *const u32,
            outlets: *const u32,
            count: usize,
            down_straight: *mut u32,
            down_diagonal: *mut u32,
            up_straight: *mut u32,
            up_diagonal: *mut u32,
        ) -> u32;

        pub fn plain_search(
            rows: usize,
            cols: usize,
            codes: *const u8,
            subaccumulation: *const u32,
            marks: *const u8,
            outlet: u32,
            rule: Rule,
            starts: *mut u32,
            places: usize,
            work: *mut u32,
        ) -> Found;

        pub fn plain_draw(
            rows: usize,
            cols: usize,
            codes: *const u8,
            outlet: u32,
            start: u32,
            places: *mut u32,
        ) -> usize;
    }
}

use second_reading::entries::Terrain;

// SAFETY of all calls below: every slice has a place for each cell, the working space three
// numbers for each, outlets and starts are cells, and tables are 1 to 3.

pub fn look_around(rows: usize, cols: usize, codes: &[u8], accumulation: &mut [u32]) -> u32 {
    assert!(codes.len() >= rows * cols && accumulation.len() >= rows * cols);
    unsafe { c::plain_look_around(rows, cols, codes.as_ptr(), accumulation.as_mut_ptr()) }
}

pub fn inflow_count(rows: usize, cols: usize, codes: &[u8], accumulation: &mut [u32]) -> u32 {
    assert!(codes.len() >= rows * cols && accumulation.len() >= rows * cols);
    unsafe { c::plain_inflow_count(rows, cols, codes.as_ptr(), accumulation.as_mut_ptr()) }
}

pub fn equation(terrain: Terrain) -> u32 {
    let Terrain { rows, cols, codes, accumulation } = terrain;
    assert!(codes.len() >= rows * cols && accumulation.len() >= rows * cols);
    unsafe { c::plain_equation(rows, cols, codes.as_ptr(), accumulation.as_ptr()) }
}

fn convertible(from: u32, to: u32, cells: usize, codes: &[u8], converted: &[u8]) -> bool {
    let tables = 1..=3;
    tables.contains(&from)
        && tables.contains(&to)
        && codes.len() >= cells
        && converted.len() >= cells
}

pub fn convert(from: u32, to: u32, rows: usize, cols: usize, codes: &[u8], converted: &mut [u8]) {
    assert!(convertible(from, to, rows * cols, codes, converted));
    unsafe { c::plain_convert(from, to, rows, cols, codes.as_ptr(), converted.as_mut_ptr()) }
}

pub fn convert_judged(
    from: u32,
    to: u32,
    rows: usize,
    cols: usize,
    codes: &[u8],
    converted: &mut [u8],
) -> u32 {
    assert!(convertible(from, to, rows * cols, codes, converted));
    unsafe { c::plain_convert_judged(from, to, rows, cols, codes.as_ptr(), converted.as_mut_ptr()) }
}

pub fn subaccumulate(
    terrain: Terrain,
    outlets: &[u32],
    subaccumulation: &mut [u32],
    marks: &mut [u8],
) -> u32 {
    let Terrain { rows, cols, codes, accumulation } = terrain;
    let cells = rows * cols;
    assert!(codes.len() >= cells && accumulation.len() >= cells);
    assert!(subaccumulation.len() >= cells && marks.len() >= cells);
    assert!(outlets.iter().all(|&outlet| (outlet as usize) < cells));
    unsafe {
        c::plain_subaccumulate(
            rows,
            cols,
            codes.as_ptr(),
            accumulation.as_ptr(),
            outlets.as_ptr(),
            outlets.len(),
            subaccumulation.as_mut_ptr(),
            marks.as_mut_ptr(),
        )
    }
}

/// The four grids hold straight and diagonal steps downstream, then upstream.
pub fn flow_lengths(terrain: Terrain, outlets: &[u32], grids: [&mut [u32]; 4]) -> u32 {
    let Terrain { rows, cols, codes, accumulation } = terrain;
    let cells = rows * cols;
    assert!(codes.len() >= cells && accumulation.len() >= cells);
    assert!(grids.iter().all(|grid| grid.len() >= cells));
    assert!(outlets.iter().all(|&outlet| (outlet as usize) < cells));
    let [down_straight, down_diagonal, up_straight, up_diagonal] = grids.map(<[u32]>::as_mut_ptr);
    unsafe {
        c::plain_flow_lengths(
            rows,
            cols,
            codes.as_ptr(),
            accumulation.as_ptr(),
            outlets.as_ptr(),
            outlets.len(),
            down_straight,
            down_diagonal,
            up_straight,
            up_diagonal,
        )
    }
}

/// Straight, diagonal, paths, visited and dropped.
#[allow(clippy::too_many_arguments)]
pub fn search(
    terrain: Terrain,
    subaccumulation: &[u32],
    marks: &[u8],
    outlet: u32,
    rule: Rule,
    starts: &mut [u32],
    work: &mut [u32],
) -> [u32; 5] {
    let Terrain { rows, cols, codes, .. } = terrain;
    let cells = rows * cols;
    assert!(codes.len() >= cells && subaccumulation.len() >= cells && marks.len() >= cells);
    assert!((outlet as usize) < cells && work.len() >= 3 * cells);
    let found = unsafe {
        c::plain_search(
            rows,
            cols,
            codes.as_ptr(),
            subaccumulation.as_ptr(),
            marks.as_ptr(),
            outlet,
            rule,
            starts.as_mut_ptr(),
            starts.len(),
            work.as_mut_ptr(),
        )
    };
    [found.straight, found.diagonal, found.paths, found.visited, found.dropped]
}

/// The equation, the inflow count, and for each outlet the tight search, its starts written after
/// those before it and their count kept. The cells visited and those dropped, over all.
pub fn trace_all(
    terrain: Terrain,
    outlets: &[u32],
    subaccumulation: &mut [u32],
    marks: &mut [u8],
    starts: &mut [u32],
    counts: &mut [u32],
    work: &mut [u32],
) -> [u32; 2] {
    assert_eq!(subaccumulate(terrain, outlets, subaccumulation, marks), 0);
    let (mut first, mut sums) = (0, [0; 2]);
    for (&outlet, count) in outlets.iter().zip(counts) {
        let list = &mut starts[first..];
        let [_, _, paths, visited, dropped] =
            search(terrain, subaccumulation, marks, outlet, Rule::Tight, list, work);
        *count = paths;
        first += paths as usize;
        sums = [sums[0] + visited, sums[1] + dropped];
    }
    assert!(first <= starts.len());
    sums
}

/// How many cells were drawn.
pub fn draw(terrain: Terrain, outlet: u32, start: u32, places: &mut [u32]) -> usize {
    let Terrain { rows, cols, codes, .. } = terrain;
    assert!(codes.len() >= rows * cols && places.len() >= rows * cols);
    unsafe { c::plain_draw(rows, cols, codes.as_ptr(), outlet, start, places.as_mut_ptr()) }
}
