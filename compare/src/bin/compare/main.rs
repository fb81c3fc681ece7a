//! Compares Jinxbanyan's host library and desk program with the second
//! reading.
//!
//! * `compare` makes all calls and compares every lent byte;
//! * `compare follow` does so and tells what it takes up, to find a call that
//!   does not return;
//! * `compare desk <program>` compares the desk program's output.
//!
//! The status is 0 if nothing differs, 1 if something does or if a number or a
//! sight never came, 2 if the program was not asked rightly.

mod calls;
mod desk_trials;
mod edge_trials;
mod grid_trials;
mod grounds;
mod lent;
mod part_trials;
mod sheet_files;
mod sheet_trials;
mod table_trials;
mod tally;
mod trap_trials;

use std::env;
use std::process::ExitCode;
use std::thread;
use std::time::Instant;

use second_reading::random::Random;

use calls::Comparison;

/// The seed of everything tried.
const SEED: u64 = 0x4A69_6E78_6261_6E79;

/// The second reading recurs as deep as the longest walk has cells.
const LARGE_STACK: usize = 512 << 20;

fn main() -> ExitCode {
    let arguments: Vec<String> = env::args().skip(1).collect();
    let arguments: Vec<&str> = arguments.iter().map(String::as_str).collect();
    let asked = match arguments[..] {
        [] => Asked::Calls { follow: false },
        ["follow"] => Asked::Calls { follow: true },
        ["desk", program] => Asked::Desk(program.to_string()),
        _ => {
            eprintln!("use: compare\n     compare follow\n     compare desk <program>");
            return ExitCode::from(2);
        }
    };
    let work = move || match asked {
        Asked::Calls { follow } => compare_calls(follow),
        Asked::Desk(program) => desk_trials::run(&program, SEED),
    };
    let worker = thread::Builder::new().stack_size(LARGE_STACK).spawn(work);
    worker.expect("a thread starts").join().unwrap_or(ExitCode::from(1))
}

enum Asked {
    Calls { follow: bool },
    Desk(String),
}

fn compare_calls(follow: bool) -> ExitCode {
    let begun = Instant::now();
    let mut comparison = Comparison::new(SEED, follow);
    type Part = (&'static str, fn(&mut Comparison, &mut Random));
    let parts: [Part; 14] = [
        ("traps", |comparison, _| trap_trials::run(comparison)),
        ("sheets", sheet_trials::run),
        ("every small grid", grid_trials::every_small_grid),
        ("recursion's edges", |comparison, _| edge_trials::recursion(comparison)),
        ("near ties", |comparison, _| edge_trials::near_ties(comparison)),
        ("a large arm", |comparison, _| edge_trials::large_arm(comparison)),
        ("outlets' edges", grid_trials::outlet_edges),
        ("256 outlets at once", edge_trials::all_outlets),
        ("parts of lists", part_trials::run),
        ("many grids", |comparison, random| grid_trials::many_grids(comparison, 2000, random)),
        ("larger grids", grid_trials::larger_grids),
        ("tables of codes", table_trials::run),
        ("the largest grid", edge_trials::largest_grid),
        ("trees over whole grids", grid_trials::whole_trees),
    ];
    for (place, (name, part)) in parts.into_iter().enumerate() {
        let (calls, begun) = (comparison.tally.calls(), Instant::now());
        // Each part has numbers of its own, so that what is tried in one does not hang on another.
        part(&mut comparison, &mut Random::new(SEED + place as u64));
        let calls = comparison.tally.calls() - calls;
        println!("{name}: {calls} calls, {:.1} s", begun.elapsed().as_secs_f64());
    }
    println!();
    comparison.tally.print();
    let unseen = comparison.tally.unseen();
    for sight in &unseen {
        println!("NEVER SEEN: {sight}");
    }
    let calls = comparison.tally.calls();
    println!("{calls} calls, {:.1} s", begun.elapsed().as_secs_f64());
    if unseen.is_empty() {
        println!("no difference");
        ExitCode::SUCCESS
    } else {
        ExitCode::from(1)
    }
}
