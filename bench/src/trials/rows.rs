//! What is measured, a row of the tables each.

use crate::grounds::KINDS;

pub struct Row {
    pub work: &'static str,
    /// What plain C does for it.
    pub plain: &'static str,
    /// What the cost is counted by.
    pub unit: &'static str,
    /// The most that the library should take of plain C's time on each kind of large ground.
    pub aims: [Option<f64>; KINDS.len()],
    /// The most that it should take of its own time for another work, on large fractal ground.
    pub own: Option<Own>,
    /// And of its own time for a call for each outlet.
    pub each: Option<f64>,
}

pub struct Own {
    pub work: &'static str,
    pub most: f64,
}

const fn row(work: &'static str, plain: &'static str, unit: &'static str) -> Row {
    Row { work, plain, unit, aims: [None; KINDS.len()], own: None, each: None }
}

/// On fractal ground, on the comb and on the serpent.
const fn aimed([fractal, comb, serpent]: [f64; 3], row: Row) -> Row {
    Row { aims: [Some(fractal), Some(comb), Some(serpent), None], ..row }
}

const fn aimed_on_fractal(aim: f64, row: Row) -> Row {
    Row { aims: [Some(aim), None, None, None], ..row }
}

const fn within(most: f64, work: &'static str, row: Row) -> Row {
    Row { own: Some(Own { work, most }), ..row }
}

const fn within_each(most: f64, row: Row) -> Row {
    Row { each: Some(most), ..row }
}

pub const ROWS: [Row; 21] = [
    aimed([1.4, 1.1, 1.4], row("accumulate", "inflow count", "cell")),
    row("accumulate", "look-around", "cell"),
    aimed([1.2, 1.5, 1.5], row("check 14", "equation", "cell")),
    aimed([1.5, 1.5, 1.5], row("convert", "look-up", "cell")),
    row("convert", "codes judged, look-up", "cell"),
    row("subaccumulate, 1 outlet", "equation, inflow count", "cell"),
    row("subaccumulate, 256 outlets", "equation, inflow count", "cell"),
    within(3.0, "accumulate", row("flow lengths, 1 outlet", "equation, traversal", "cell")),
    within(
        1.2,
        "flow lengths, 1 outlet",
        row("flow lengths, 256 outlets", "equation, traversal", "cell"),
    ),
    row("stack, no dropping, whole", "equation, inflow count, search", "cell"),
    aimed_on_fractal(1.3, row("stack, no dropping, search", "search", "visited cell")),
    row("stack, dropping, whole", "equation, inflow count, search", "cell"),
    aimed_on_fractal(1.3, row("stack, dropping, search", "search", "visited cell")),
    within(
        2.0,
        "stack, no dropping, whole",
        row(
            "stack, edition 2, no dropping, whole",
            "by edition 1: equation, inflow count, search",
            "cell",
        ),
    ),
    within_each(
        0.02,
        within(
            1.5,
            "stack, dropping, whole",
            row("trace all, 256 outlets", "equation, inflow count, searches", "cell"),
        ),
    ),
    row("recursion, no dropping, whole", "equation, inflow count, search", "cell"),
    row("recursion, no dropping, search", "search", "visited cell"),
    row("recursion, dropping, whole", "equation, inflow count, search", "cell"),
    row("recursion, dropping, search", "search", "visited cell"),
    row("draw, whole", "equation, walk", "cell"),
    row("draw, path", "walk", "cell of the path"),
];
