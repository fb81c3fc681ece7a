//! The functions of `include/jinxbanyan.h`: its names, its arguments, its order.
//!
//! They are for callers that have pointers; those with slices find the same at the root, safe. A
//! pointer is not null even where its count is 0, and of the slices of one call none overlaps
//! another.

extern "C" {
    pub fn jb_accumulate(
        rows: usize,
        cols: usize,
        codes: *const u8,
        codes_count: usize,
        accumulation: *mut u32,
        accumulation_count: usize,
    ) -> u32;

    pub fn jb_check_accumulation(
        rows: usize,
        cols: usize,
        codes: *const u8,
        codes_count: usize,
        accumulation: *const u32,
        accumulation_count: usize,
    ) -> u32;

    pub fn jb_subaccumulate(
        rows: usize,
        cols: usize,
        codes: *const u8,
        codes_count: usize,
        accumulation: *const u32,
        accumulation_count: usize,
        outlets: *const u32,
        outlets_count: usize,
        subaccumulation: *mut u32,
        subaccumulation_count: usize,
    ) -> u32;

    pub fn jb_flow_lengths(
        rows: usize,
        cols: usize,
        codes: *const u8,
        codes_count: usize,
        accumulation: *const u32,
        accumulation_count: usize,
        outlets: *const u32,
        outlets_count: usize,
        down_straight: *mut u32,
        down_straight_count: usize,
        down_diagonal: *mut u32,
        down_diagonal_count: usize,
        up_straight: *mut u32,
        up_straight_count: usize,
        up_diagonal: *mut u32,
        up_diagonal_count: usize,
    ) -> u32;

    pub fn jb_convert(
        from: u32,
        to: u32,
        rows: usize,
        cols: usize,
        codes: *const u8,
        codes_count: usize,
        converted: *mut u8,
        converted_count: usize,
    ) -> u32;

    pub fn jb_trace_by_stack(
        edition: u32,
        rows: usize,
        cols: usize,
        codes: *const u8,
        codes_count: usize,
        accumulation: *const u32,
        accumulation_count: usize,
        outlets: *const u32,
        outlets_count: usize,
        place: usize,
        dropping: u32,
        subaccumulation: *mut u32,
        subaccumulation_count: usize,
        starts: *mut u32,
        starts_count: usize,
        work: *mut u32,
        work_count: usize,
        results: *mut [u32; 5],
    ) -> u32;

    pub fn jb_trace_by_recursion(
        edition: u32,
        rows: usize,
        cols: usize,
        codes: *const u8,
        codes_count: usize,
        accumulation: *const u32,
        accumulation_count: usize,
        outlets: *const u32,
        outlets_count: usize,
        place: usize,
        dropping: u32,
        subaccumulation: *mut u32,
        subaccumulation_count: usize,
        starts: *mut u32,
        starts_count: usize,
        results: *mut [u32; 5],
    ) -> u32;

    pub fn jb_trace_all(
        edition: u32,
        rows: usize,
        cols: usize,
        codes: *const u8,
        codes_count: usize,
        accumulation: *const u32,
        accumulation_count: usize,
        outlets: *const u32,
        outlets_count: usize,
        subaccumulation: *mut u32,
        subaccumulation_count: usize,
        starts: *mut u32,
        starts_count: usize,
        counts: *mut u32,
        counts_count: usize,
        work: *mut u32,
        work_count: usize,
        sums: *mut [u32; 2],
    ) -> u32;

    pub fn jb_starts_of(
        starts: *const u32,
        starts_count: usize,
        counts: *const u32,
        counts_count: usize,
        choice: usize,
        part: *mut [usize; 2],
    );

    pub fn jb_draw(
        rows: usize,
        cols: usize,
        codes: *const u8,
        codes_count: usize,
        accumulation: *const u32,
        accumulation_count: usize,
        outlets: *const u32,
        outlets_count: usize,
        place: usize,
        start: u32,
        path: *mut u32,
        path_count: usize,
        drawn: *mut [u32; 1],
    ) -> u32;

    pub fn jb_read_sheet(
        file: *const u8,
        file_count: usize,
        codes: *mut u8,
        codes_count: usize,
        outlets: *mut u32,
        outlets_count: usize,
        shape: *mut [u32; 3],
    ) -> u32;

    pub fn jb_write_sheet(
        rows: usize,
        cols: usize,
        codes: *const u8,
        codes_count: usize,
        outlets: *const u32,
        outlets_count: usize,
        file: *mut u8,
        file_count: usize,
        size: *mut [u32; 1],
    ) -> u32;
}
