//! A second reading of Jinxbanyan's rules.
//!
//! Everything here is written from the words of the scope paper ("01") and of
//! the later requests ("02"), and from nothing else, as directly as the words
//! allow, and by other methods than a fast program would choose:
//!
//! * accumulation in topological order, rings by a search of their own;
//! * lengths by walking from every cell, upstream ones by whose walk comes
//!   first if the longest is walked first;
//! * exact comparison of lengths by integer square roots;
//! * the divide by walking from every cell, its neighbours with it;
//! * the order of starts by comparing whole routes read upward;
//! * visited and dropped by plain recursion over an explicit tree;
//! * codes of other tables by the step that they mean, found by turning around
//!   the cell.
//!
//! | module | what it tells |
//! |---|---|
//! | [`ground`] | codes, neighbours, walks, rings, accumulation |
//! | [`lengths`] | a + b√2 and its order |
//! | [`subwatershed`] | outlets, subaccumulation, longest starts, paths |
//! | [`editions`] | where a path may start: anywhere, or on the divide |
//! | [`flow_lengths`] | each cell's lengths downstream and upstream |
//! | [`search`] | visited and dropped |
//! | [`tables`] | the three tables of codes, and a code of one in another |
//! | [`entries`] | the grid entries, their checks and what they leave |
//! | [`sheet`] | reading and writing the sheet file |
//! | [`desk`] | the desk program's whole output |
//!
//! [`random`] is no part of it: numbers from a seed, for the programs that try this reading.

pub mod desk;
pub mod editions;
pub mod entries;
pub mod flow_lengths;
pub mod ground;
pub mod lengths;
pub mod random;
pub mod search;
pub mod sheet;
pub mod subwatershed;
pub mod tables;

/// The number of a check that said "no". 0 stands for acceptance and is never
/// held here.
#[derive(Clone, Copy, Debug, PartialEq, Eq)]
pub struct Refusal(pub u32);

/// One check: its number where the answer is "no".
pub(crate) fn check(number: u32, yes: bool) -> Result<(), Refusal> {
    if yes {
        Ok(())
    } else {
        Err(Refusal(number))
    }
}
