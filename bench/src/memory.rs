//! Memory that the calls take.

use std::env;
use std::process::Command;

use second_reading::entries::{self, Terrain};

use crate::grounds::comb;
use crate::measure::peak;
use crate::plain::{self, Rule};
use crate::tables::table;
use crate::trials::{accepted, EDITION, FROM, LIST, OUTLETS, TO};

/// The side of the comb on which memory is measured.
const SIDE: usize = 4096;

const WORKS: [&str; 8] = [
    "accumulate",
    "check 14",
    "convert",
    "subaccumulate",
    "flow lengths",
    "trace by stack",
    "trace all",
    "draw",
];

/// What the Rust implementation does not do here: it would walk for minutes.
const NOT_IN_RUST: [&str; 3] = ["flow lengths", "trace by stack", "trace all"];

const WHO: [&str; 3] = ["library", "plain C", "Rust"];

/// What one process lends, and how much memory it has in use at most when it makes the call alone.
pub struct Memory(Vec<Vec<String>>);

impl Memory {
    pub fn print(&self) {
        println!("### Memory, comb of 4,096², MiB\n");
        let heads = ["work", "library lent", "peak", "C lent", "peak", "Rust lent", "peak"];
        table(1, &heads, &self.0);
    }
}

/// To be called while this process is small: another starts with the memory of the one that starts
/// it.
pub fn memory() -> Memory {
    let mut rows = Vec::new();
    for work in WORKS {
        let mut row = vec![work.to_string()];
        for who in WHO {
            if who == "Rust" && NOT_IN_RUST.contains(&work) {
                row.extend(["–".to_string(), "–".to_string()]);
                continue;
            }
            let program = env::current_exe().expect("this program");
            let output = Command::new(program).args(["memory", who, work]).output();
            let output = output.expect("a process starts");
            assert!(output.status.success(), "{who}, {work}: {output:?}");
            let text = String::from_utf8(output.stdout).expect("two numbers");
            row.extend(text.split_whitespace().map(str::to_string));
        }
        rows.push(row);
    }
    Memory(rows)
}

/// The call of one process: prints the MiB lent and the peak.
pub fn memory_of(who: &str, work: &str) {
    let codes = &comb(SIDE).codes;
    let lent = match work {
        "convert" => converting(who, codes),
        _ => accumulated(who, work, codes),
    };
    println!("{} {}", lent >> 20, peak() >> 20);
}

/// Converts, with no accumulation lent, and gives the bytes that are lent.
fn converting(who: &str, codes: &[u8]) -> usize {
    let mut converted = vec![1; codes.len()];
    match who {
        "library" => accepted(jinxbanyan::convert(FROM, TO, SIDE, SIDE, codes, &mut converted)),
        "plain C" => plain::convert(FROM, TO, SIDE, SIDE, codes, &mut converted),
        "Rust" => assert!(entries::convert(FROM, TO, SIDE, SIDE, codes, &mut converted).is_ok()),
        _ => panic!("no such call"),
    }
    2 * codes.len()
}

/// Does other work, with an accumulation lent, and gives the bytes that are lent.
fn accumulated(who: &str, work: &str, codes: &[u8]) -> usize {
    let cells = codes.len();
    let grid = || vec![1u32; cells];
    let mut accumulation = grid();
    let mut lent = 5 * cells;
    if work != "accumulate" {
        accepted(jinxbanyan::accumulate(SIDE, SIDE, codes, &mut accumulation));
    }
    let outlets = [(SIDE * (SIDE - 1) + SIDE / 2) as u32];
    match (who, work) {
        ("library", "accumulate") => {
            accepted(jinxbanyan::accumulate(SIDE, SIDE, codes, &mut accumulation));
        }
        ("plain C", "accumulate") => {
            accepted(plain::inflow_count(SIDE, SIDE, codes, &mut accumulation));
        }
        ("Rust", "accumulate") => {
            assert!(entries::accumulate(SIDE, SIDE, codes, &mut accumulation).is_ok());
        }
        _ => {
            let terrain = Terrain { rows: SIDE, cols: SIDE, codes, accumulation: &accumulation };
            lent += match (who, work) {
                ("library", "check 14") => {
                    accepted(jinxbanyan::check_accumulation(SIDE, SIDE, codes, &accumulation));
                    0
                }
                ("plain C", "check 14") => {
                    accepted(plain::equation(terrain));
                    0
                }
                ("Rust", "check 14") => {
                    assert!(entries::check_accumulation(terrain).is_ok());
                    0
                }
                ("library", "subaccumulate") => {
                    accepted(jinxbanyan::subaccumulate(
                        SIDE,
                        SIDE,
                        codes,
                        &accumulation,
                        &outlets,
                        &mut grid(),
                    ));
                    4 * cells
                }
                ("plain C", "subaccumulate") => {
                    let mut marks = vec![1; cells];
                    accepted(plain::subaccumulate(terrain, &outlets, &mut grid(), &mut marks));
                    5 * cells
                }
                ("Rust", "subaccumulate") => {
                    assert!(entries::subaccumulate(terrain, &outlets, &mut grid()).is_ok());
                    4 * cells
                }
                ("library", "flow lengths") => {
                    accepted(jinxbanyan::flow_lengths(
                        SIDE,
                        SIDE,
                        codes,
                        &accumulation,
                        &outlets,
                        &mut grid(),
                        &mut grid(),
                        &mut grid(),
                        &mut grid(),
                    ));
                    16 * cells
                }
                ("plain C", "flow lengths") => {
                    let mut grids = [grid(), grid(), grid(), grid()];
                    let grids = grids.each_mut().map(|grid| &mut grid[..]);
                    accepted(plain::flow_lengths(terrain, &outlets, grids));
                    16 * cells
                }
                ("library", "trace by stack") => {
                    accepted(jinxbanyan::trace_by_stack(
                        EDITION,
                        SIDE,
                        SIDE,
                        codes,
                        &accumulation,
                        &outlets,
                        0,
                        false,
                        &mut grid(),
                        &mut vec![1; LIST],
                        &mut vec![1; 3 * cells],
                        &mut [0; 5],
                    ));
                    16 * cells + 4 * LIST
                }
                ("plain C", "trace by stack") => {
                    let (mut starts, mut work) = (vec![1; LIST], vec![1; 3 * cells]);
                    let (mut grid, mut marks) = (grid(), vec![1; cells]);
                    accepted(plain::subaccumulate(terrain, &outlets, &mut grid, &mut marks));
                    plain::search(
                        terrain,
                        &grid,
                        &marks,
                        outlets[0],
                        Rule::None,
                        &mut starts,
                        &mut work,
                    );
                    17 * cells + 4 * LIST
                }
                ("library", "trace all") => {
                    accepted(jinxbanyan::trace_all(
                        EDITION,
                        SIDE,
                        SIDE,
                        codes,
                        &accumulation,
                        &outlets,
                        &mut grid(),
                        &mut vec![1; LIST],
                        &mut vec![1; OUTLETS],
                        &mut vec![1; 3 * cells],
                        &mut [0; 2],
                    ));
                    16 * cells + 4 * (LIST + OUTLETS)
                }
                ("plain C", "trace all") => {
                    plain::trace_all(
                        terrain,
                        &outlets,
                        &mut grid(),
                        &mut vec![1; cells],
                        &mut vec![1; LIST],
                        &mut vec![1; OUTLETS],
                        &mut vec![1; 3 * cells],
                    );
                    17 * cells + 4 * (LIST + OUTLETS)
                }
                ("library", "draw") => {
                    accepted(jinxbanyan::draw(
                        SIDE,
                        SIDE,
                        codes,
                        &accumulation,
                        &outlets,
                        0,
                        0,
                        &mut grid(),
                        &mut [0],
                    ));
                    4 * cells
                }
                ("plain C", "draw") => {
                    accepted(plain::equation(terrain));
                    assert!(plain::draw(terrain, outlets[0], 0, &mut grid()) > 0);
                    4 * cells
                }
                ("Rust", "draw") => {
                    assert!(entries::draw(terrain, &outlets, 0, 0, &mut grid()).is_ok());
                    4 * cells
                }
                _ => panic!("no such call"),
            };
        }
    }
    lent
}
