//! What tracings that were accepted had to do with ponds and with the divide, and what those with
//! dropping dropped.

use second_reading::ground::Ground;
use second_reading::search::Search;

use super::searches::Searches;

/// A tracing that was accepted: the ground, the outlet that is traced, and the list it stands in.
pub struct Accepted<'a> {
    pub ground: Ground<'a>,
    pub outlet: usize,
    pub outlets: &'a [u32],
    /// Those listed.
    pub starts: &'a [u32],
    pub subaccumulation: &'a [u32],
    /// With dropping.
    pub searches: Option<Searches>,
}

/// Something to be seen of it.
type Sight = (&'static str, fn(&Accepted) -> bool);

pub const TRACINGS: [Sight; 17] = [
    ("ground without ponds", |tracing| ponds(tracing.ground).next().is_none()),
    ("a pond that is no outlet", |tracing| {
        ponds(tracing.ground).any(|pond| !tracing.outlets.contains(&(pond as u32)))
    }),
    ("an outlet above a pond", |&Accepted { ground, outlet, .. }| {
        ground.walk(outlet).skip(1).any(|cell| ground.is_pond(cell))
    }),
    ("an outlet beside a pond and not above it", |&Accepted { ground, outlet, .. }| {
        around(ground, outlet)
            .any(|cell| ground.is_pond(cell) && ground.below(outlet) != Some(cell))
    }),
    ("a pond as outlet", |&Accepted { ground, outlet, .. }| ground.is_pond(outlet)),
    ("a pond as the only cell", |&Accepted { ground, outlet, .. }| {
        ground.is_pond(outlet) && ground.cells() == 1
    }),
    ("a pond amidst eight inflows as outlet", |&Accepted { ground, outlet, .. }| {
        ground.is_pond(outlet) && ground.inflows(outlet).count() == 8
    }),
    ("a pond beside a pond as outlet", |&Accepted { ground, outlet, .. }| {
        ground.is_pond(outlet) && around(ground, outlet).any(|cell| ground.is_pond(cell))
    }),
    ("fewer cells visited than by the first limit", |tracing| {
        dropped(tracing, |searches| searches.step.visited < searches.first.visited)
    }),
    ("a neighbour entered at a limit equal to the greatest met", |tracing| {
        dropped(tracing, |searches| searches.step.equal_limits > 0)
    }),
    ("a neighbour dropped above a straight step", |tracing| {
        dropped(tracing, |searches| searches.step.straight_drops > 0)
    }),
    ("a neighbour dropped above a diagonal step", |tracing| {
        dropped(tracing, |searches| searches.step.diagonal_drops > 0)
    }),
    ("a start that is no headwater", |tracing| {
        tracing.starts.iter().any(|&start| tracing.subaccumulation[start as usize] > 1)
    }),
    ("a headwater visited where no length is met", |tracing| {
        dropped(tracing, |searches| searches.step.met_in_vain > 0)
    }),
    ("an outlet that is not on the divide", |tracing| {
        dropped(tracing, |searches| !searches.from_outlet)
    }),
    ("by edition 2 other starts than by edition 1", |tracing| {
        by_both(tracing, |first, second| first.starts != second.starts)
    }),
    ("by edition 2 more cells visited than by edition 1", |tracing| {
        by_both(tracing, |first, second| first.visited < second.visited)
    }),
];

fn ponds(ground: Ground<'_>) -> impl Iterator<Item = usize> + '_ {
    (0..ground.cells()).filter(move |&cell| ground.is_pond(cell))
}

fn around(ground: Ground<'_>, cell: usize) -> impl Iterator<Item = usize> + '_ {
    (0..8).filter_map(move |way| ground.neighbour(cell, way))
}

/// Of a tracing by edition 2 with dropping, its search by either edition.
fn by_both(tracing: &Accepted, is_seen: fn(&Search, &Search) -> bool) -> bool {
    let Some(Searches { step, first_edition: Some(first), .. }) = &tracing.searches else {
        return false;
    };
    is_seen(first, step)
}

fn dropped(tracing: &Accepted, is_seen: fn(&Searches) -> bool) -> bool {
    tracing.searches.as_ref().is_some_and(is_seen)
}
