//! Jinxbanyan for Rust: flow paths on a D8 grid.
//!
//! Each function is one of the library for C, with a slice for each pointer and count. It answers
//! with the number of the first check that fails; 0 is acceptance. Only `starts_of`, which refuses
//! no call, answers with none. README has the numbers, and six lines that trace a sheet.
//!
//! A refusal changes nothing lent, but where a comment says otherwise, and places beyond those that
//! an answer needs keep their contents. Places for results, which are arrays, are written on every
//! call.
//!
//! Why the calls are safe: a slice's pointer is never null and passes with its own count, a place
//! for results has its size by its type, and what is borrowed to be written overlaps nothing else.
//! Two slices that are only read may be the same memory: nothing is written there.

// As many as the functions for C have.
#![allow(clippy::too_many_arguments)]

mod all_outlets;
pub mod declared;
mod drawing;
mod grids;
mod sheets;
mod tracing;

pub use all_outlets::{starts_of, trace_all};
pub use drawing::draw;
pub use grids::{accumulate, check_accumulation, convert, flow_lengths, subaccumulate};
pub use sheets::{read_sheet, write_sheet};
pub use tracing::{trace_by_recursion, trace_by_stack};
