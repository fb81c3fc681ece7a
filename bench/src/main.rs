//! Measures Jinxbanyan's host library beside plain C and the Rust implementation, and prints the
//! tables in Markdown.
//!
//! * `bench` measures everything;
//! * `bench quick` leaves the largest grids out;
//! * `bench aims` measures only what is aimed at: large grounds, without Rust, more often.

mod grounds;
mod measure;
mod memory;
mod plain;
mod stacks;
mod tables;
mod trials;

use std::env;
use std::fs;
use std::process::ExitCode;
use std::thread;

use grounds::Kind;
use measure::{Best, Clock};
use tables::Size;
use trials::Runs;

/// Sides, and how often each does its work.
const SIZES: [(usize, Runs); 3] = [
    (64, Runs { quick: 15, rust: 15, each: false }),
    (1024, Runs { quick: 9, rust: 7, each: false }),
    (4096, Runs { quick: 5, rust: 2, each: true }),
];

/// The Rust implementation recurs as deep as the longest walk has cells.
const STACK: usize = 512 << 20;

fn main() -> ExitCode {
    let arguments: Vec<String> = env::args().skip(1).collect();
    let arguments: Vec<&str> = arguments.iter().map(String::as_str).collect();
    let work: fn() = match arguments[..] {
        [] => || bench(&SIZES),
        ["quick"] => || bench(&SIZES[..2]),
        ["aims"] => aims,
        ["memory", who, work] => {
            memory::memory_of(who, work);
            return ExitCode::SUCCESS;
        }
        _ => {
            eprintln!("use: bench [quick | aims]");
            return ExitCode::from(2);
        }
    };
    let worker = thread::Builder::new().stack_size(STACK).spawn(work);
    match worker.expect("a thread starts").join() {
        Ok(()) => ExitCode::SUCCESS,
        Err(_) => ExitCode::from(1),
    }
}

fn bench(sizes: &[(usize, Runs)]) {
    machine(sizes);
    let memory = memory::memory();
    let mut clock = Clock::default();
    let measured: Vec<Size> =
        sizes.iter().map(|&size| measure(size, &grounds::KINDS, &mut clock)).collect();
    let largest = measured.last().expect("a size");
    if sizes.len() == SIZES.len() {
        tables::aims(largest);
    }
    measured.iter().rev().for_each(tables::ratios);
    tables::growth(&measured);
    tables::times(largest);
    tables::visits(&measured);
    tables::second_searches(largest);
    memory.print();
    stacks::stacks();
    noise(&clock.bests);
}

fn aims() {
    let size = (4096, Runs { quick: 15, rust: 0, each: true });
    machine(&[size]);
    let mut clock = Clock::default();
    tables::aims(&measure(size, &grounds::KINDS[..3], &mut clock));
    noise(&clock.bests);
}

fn measure((side, runs): (usize, Runs), kinds: &[Kind], clock: &mut Clock) -> Size {
    let sets = trials::Sets::new(side * side);
    let mut grounds = Vec::new();
    for (at, (kind, make)) in kinds.iter().enumerate() {
        eprintln!("{kind} {side}");
        // A call for each outlet takes long, and only on the first ground is it aimed at.
        let runs = Runs { each: runs.each && at == 0, ..runs };
        grounds.push(trials::trial(&make(side), runs, &sets, clock));
    }
    Size { name: format!("{}²", tables::grouped(side)), grounds }
}

/// The machine, the compilers, and what is lent.
fn machine(sizes: &[(usize, Runs)]) {
    let processor = fs::read_to_string("/proc/cpuinfo").unwrap_or_default();
    let processor = processor.lines().find_map(|line| line.strip_prefix("model name"));
    let processor = processor.map_or("unknown", |name| name.trim_start_matches([' ', '\t', ':']));
    let load = fs::read_to_string("/proc/loadavg").unwrap_or_default();
    let cores = thread::available_parallelism().map_or(0, usize::from);
    println!("- Machine: {processor}, {cores} cores, load before the run {}", one_minute(&load));
    println!("- C: {}; Rust: {}, release", env!("GCC"), env!("RUSTC"));
    let runs = sizes.iter().map(|&(side, Runs { quick, rust, .. })| {
        format!("{quick} ({rust} in Rust) at {}²", tables::grouped(side))
    });
    let runs: Vec<String> = runs.collect();
    println!("- Times: CPU time of the process, the best of {}", runs.join(", "));
    println!(
        "- Lent: grids of R × C places, a list of {} starts, {} counts, working space of 3 × R × C \
         numbers, R × C places to draw in; all written before",
        tables::grouped(trials::LIST),
        trials::OUTLETS
    );
    println!(
        "- Rust: traces and gives flow lengths where all its walks together have at most {} steps; \
         only once, and traces with dropping alone, where they have more than {}",
        tables::grouped(trials::MOST_STEPS as usize),
        tables::grouped(trials::MANY_STEPS as usize)
    );
    println!("- ~ stands where noise may hide a figure, – where there is none\n");
}

fn one_minute(load: &str) -> &str {
    load.split_whitespace().next().unwrap_or("unknown")
}

/// How far the second best of a measurement lies from the best, and wall time from CPU time.
fn noise(bests: &[Best]) {
    let middle = |mut list: Vec<f64>| {
        list.sort_by(f64::total_cmp);
        (list[list.len() / 2], list[list.len() * 9 / 10])
    };
    let spread = bests.iter().filter_map(|best| Some(best.spread? / best.taken.cpu)).collect();
    let wall = bests.iter().map(|best| (best.taken.wall / best.taken.cpu - 1.0).max(0.0)).collect();
    let (spread, wall) = (middle(spread), middle(wall));
    println!(
        "Noise: the second best lies {:.1} % above the best in half of the measurements, {:.1} % \
         in a tenth; wall time {:.1} % above CPU time in half, {:.1} % in a tenth.",
        spread.0 * 100.0,
        spread.1 * 100.0,
        wall.0 * 100.0,
        wall.1 * 100.0
    );
}
