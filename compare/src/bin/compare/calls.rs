//! One call, made to the host library and to the second reading, and every
//! lent byte compared afterwards.

mod all_outlets;
mod converting;
mod drawing;
mod grids;
mod sheets;
mod slices;
mod tracing;

use std::fmt::Arguments;
use std::process;
use std::thread;

use second_reading::random::Random;
use second_reading::Refusal;

use crate::lent::{noise, Difference, Element, Lent};
use crate::tally::{Entry, Tally};
use slices::{Compared, Input, Output};

pub use all_outlets::{AllRooms, AllTraced};
pub use converting::Conversion;
pub use tracing::{Ask, Engine, Rooms, NO_EDITIONS};

/// The stack on which every entry must do its work.
const SMALL_STACK: usize = 2 << 20;

/// Calls that lend no more codes than this cannot go deep, and need no stack of
/// their own.
const SHALLOW: usize = 1000;

/// The comparison so far.
pub struct Comparison {
    pub tally: Tally,
    /// What is being tried, for the report.
    subject: String,
    /// Whether to tell each subject when it is taken up.
    follow: bool,
    /// For fences and noise.
    random: Random,
}

impl Comparison {
    pub fn new(seed: u64, follow: bool) -> Self {
        Comparison {
            tally: Tally::default(),
            subject: String::new(),
            follow,
            random: Random::new(!seed),
        }
    }

    /// Takes up another subject.
    pub fn about(&mut self, subject: String) {
        if self.follow {
            eprintln!("{subject}");
        }
        self.subject = subject;
    }

    pub fn subject(&self) -> &str {
        &self.subject
    }

    fn input<'a, T: Element>(&mut self, name: &'static str, contents: &'a [T]) -> Input<'a, T> {
        Input { name, contents, lent: Lent::new(contents, &mut self.random) }
    }

    fn output<T: Element>(&mut self, name: &'static str, room: usize) -> Output<T> {
        let before = noise(room, &mut self.random);
        let lent = Lent::new(&before, &mut self.random);
        Output { name, due: before.clone(), before, lent }
    }

    /// Makes a call of the host library that lends so many codes. One that may go
    /// deep runs on a thread of its own with a stack of 2 MiB; the thread bears
    /// the subject's name, which is told if the stack overflows.
    fn on_small_stack(&self, codes: usize, call: impl FnOnce() -> u32 + Send) -> u32 {
        if codes <= SHALLOW {
            return call();
        }
        let thread = thread::Builder::new().name(self.subject.clone()).stack_size(SMALL_STACK);
        thread::scope(|scope| {
            let running = thread.spawn_scoped(scope, call).expect("a thread starts");
            running.join().expect("the call returns")
        })
    }

    /// Compares the numbers and every lent slice, and counts the call. The
    /// first difference ends the program.
    fn settle(
        &mut self,
        entry: Entry,
        arguments: Arguments,
        slices: &[&dyn Compared],
        due: u32,
        found: u32,
    ) {
        let differing: Vec<(&str, Difference)> =
            slices.iter().filter_map(|slice| Some((slice.name(), slice.difference()?))).collect();
        if due == found && differing.is_empty() {
            self.tally.count(entry, due);
            return;
        }
        println!("DIFFERENT at call {}: {}", self.tally.calls() + 1, entry.name());
        println!("  trying {}", self.subject);
        println!("  number: due {due}, found {found}");
        for (name, Difference { place, due, found }) in differing {
            println!("  {name}[{place}], first of those that differ: due {due}, found {found}");
        }
        println!("  {arguments}");
        for slice in slices {
            println!("  {}: {}", slice.name(), slice.before());
        }
        process::exit(1);
    }
}

fn number<T>(answer: Result<T, Refusal>) -> u32 {
    answer.map_or_else(|Refusal(number)| number, |_| 0)
}
