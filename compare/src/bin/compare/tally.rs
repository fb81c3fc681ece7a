//! How many calls of each number each entry saw, and what was seen of ponds, of drops, of the
//! divide, of calls for all outlets and of parts.

mod all_outlets;
mod searches;
mod sights;

use all_outlets::{ALL_CALLS, PARTS};
use sights::TRACINGS;

pub use all_outlets::{AllCall, Part};
pub use searches::Searches;
pub use sights::Accepted;

const NUMBERS: usize = 26;

/// The columns of the table.
#[derive(Clone, Copy, Debug, PartialEq, Eq)]
pub enum Entry {
    Accumulate,
    CheckAccumulation,
    Subaccumulate,
    FlowLengths,
    Convert,
    TraceByStack,
    TraceByStackDropping,
    TraceByRecursion,
    TraceByRecursionDropping,
    TraceAll,
    /// It answers with no number: its calls are counted under 0.
    StartsOf,
    Draw,
    ReadSheet,
    WriteSheet,
}

const ENTRIES: [Entry; 14] = [
    Entry::Accumulate,
    Entry::CheckAccumulation,
    Entry::Subaccumulate,
    Entry::FlowLengths,
    Entry::Convert,
    Entry::TraceByStack,
    Entry::TraceByStackDropping,
    Entry::TraceByRecursion,
    Entry::TraceByRecursionDropping,
    Entry::TraceAll,
    Entry::StartsOf,
    Entry::Draw,
    Entry::ReadSheet,
    Entry::WriteSheet,
];

impl Entry {
    pub fn name(self) -> &'static str {
        match self {
            Entry::Accumulate => "accumulate",
            Entry::CheckAccumulation => "check",
            Entry::Subaccumulate => "subacc",
            Entry::FlowLengths => "lengths",
            Entry::Convert => "convert",
            Entry::TraceByStack => "stack",
            Entry::TraceByStackDropping => "stack-drop",
            Entry::TraceByRecursion => "recur",
            Entry::TraceByRecursionDropping => "recur-drop",
            Entry::TraceAll => "trace-all",
            Entry::StartsOf => "starts-of",
            Entry::Draw => "draw",
            Entry::ReadSheet => "read",
            Entry::WriteSheet => "write",
        }
    }

    /// The numbers that can come of the entry.
    fn numbers(self) -> &'static [u32] {
        match self {
            Entry::Accumulate => &[0, 10, 11, 12, 13],
            Entry::CheckAccumulation => &[0, 10, 11, 12, 14],
            Entry::Subaccumulate | Entry::FlowLengths => &[0, 10, 11, 12, 14, 15, 16, 17],
            Entry::Convert => &[0, 10, 11, 12, 24],
            Entry::TraceByStack | Entry::TraceByStackDropping => {
                &[0, 10, 11, 12, 14, 15, 16, 17, 18, 20, 21, 25]
            }
            Entry::TraceByRecursion | Entry::TraceByRecursionDropping => {
                &[0, 10, 11, 12, 14, 15, 16, 17, 18, 19, 21, 25]
            }
            Entry::TraceAll => &[0, 10, 11, 12, 14, 15, 16, 17, 20, 21, 23, 25],
            Entry::StartsOf => &[0],
            Entry::Draw => &[0, 10, 11, 12, 14, 15, 16, 17, 18, 22, 23],
            Entry::ReadSheet => &[0, 1, 2, 3, 4, 5, 6, 7, 8, 9],
            Entry::WriteSheet => &[0, 2, 3, 5, 7, 8, 23],
        }
    }
}

#[derive(Default)]
pub struct Tally {
    counts: [[u64; NUMBERS]; ENTRIES.len()],
    tracings: [u64; TRACINGS.len()],
    all_calls: [u64; ALL_CALLS.len()],
    parts: [u64; PARTS.len()],
}

/// Counts the sights that were seen.
fn see(counts: &mut [u64], seen: impl IntoIterator<Item = bool>) {
    counts.iter_mut().zip(seen).for_each(|(count, seen)| *count += u64::from(seen));
}

impl Tally {
    pub fn count(&mut self, entry: Entry, number: u32) {
        self.counts[entry as usize][number as usize] += 1;
    }

    pub fn see_tracing(&mut self, tracing: &Accepted) {
        see(&mut self.tracings, TRACINGS.map(|(_, is_seen)| is_seen(tracing)));
    }

    pub fn see_all_call(&mut self, call: &AllCall) {
        see(&mut self.all_calls, ALL_CALLS.map(|(_, is_seen)| is_seen(call)));
    }

    pub fn see_part(&mut self, part: &Part) {
        see(&mut self.parts, PARTS.map(|(_, is_seen)| is_seen(part)));
    }

    /// Every sight, and how often it was seen.
    fn sights(&self) -> impl Iterator<Item = (String, u64)> + '_ {
        let tracings = TRACINGS.map(|(name, _)| format!("accepted tracings, {name}"));
        let all_calls = ALL_CALLS.map(|(name, _)| format!("calls for all outlets, {name}"));
        let parts = PARTS.map(|(name, _)| format!("parts, {name}"));
        let names = tracings.into_iter().chain(all_calls).chain(parts);
        let counts = self.tracings.iter().chain(&self.all_calls).chain(&self.parts);
        names.zip(counts.copied())
    }

    pub fn calls(&self) -> u64 {
        self.counts.iter().flatten().sum()
    }

    /// The numbers of entries and the sights that can come and were never seen.
    pub fn unseen(&self) -> Vec<String> {
        let possible = ENTRIES
            .into_iter()
            .flat_map(|entry| entry.numbers().iter().map(move |&number| (entry, number)));
        let numbers = possible
            .filter(|&(entry, number)| self.counts[entry as usize][number as usize] == 0)
            .map(|(entry, number)| format!("{number} of {}", entry.name()));
        let sights = self.sights().filter(|&(_, count)| count == 0).map(|(name, _)| name);
        numbers.chain(sights).collect()
    }

    pub fn print(&self) {
        print!("number");
        ENTRIES.iter().for_each(|entry| print!(" {:>10}", entry.name()));
        println!(" {:>10}", "all");
        for number in 0..NUMBERS {
            print!("{number:>6}");
            for entry in ENTRIES {
                if entry.numbers().contains(&(number as u32)) {
                    print!(" {:>10}", self.counts[entry as usize][number]);
                } else {
                    print!(" {:>10}", "-");
                }
            }
            let all: u64 = self.counts.iter().map(|counts| counts[number]).sum();
            println!(" {all:>10}");
        }
        print!("   all");
        self.counts.iter().for_each(|counts| print!(" {:>10}", counts.iter().sum::<u64>()));
        println!(" {:>10}", self.calls());
        self.sights().for_each(|(name, count)| println!("{name}: {count}"));
    }
}
