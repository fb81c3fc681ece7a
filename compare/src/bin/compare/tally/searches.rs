//! The searches of a tracing with dropping, by both limits, and by edition 1 too.

use second_reading::editions::Edition;
use second_reading::ground::Ground;
use second_reading::search::{Limit, Search, Tree};
use second_reading::subwatershed::Division;

pub struct Searches {
    /// By 01's limit.
    pub first: Search,
    /// By the limit that tracings drop by.
    pub step: Search,
    /// By that limit and by edition 1, where the tracing is by edition 2.
    pub first_edition: Option<Search>,
    /// Whether a path may start at the outlet itself.
    pub from_outlet: bool,
}

impl Searches {
    /// Searches the subwatershed of an outlet that has these longest starts. By both limits they
    /// must be listed, the same greatest length met, and each cell visited or dropped; by the first
    /// no fewer cells may be visited. By edition 2 no fewer may be visited than by edition 1, and
    /// the greatest may not be longer.
    pub fn of(
        edition: Edition,
        ground: Ground,
        outlet: usize,
        outlets: &[u32],
        listed: &[u32],
    ) -> Searches {
        let division = Division::new(ground, outlets);
        let tree = Tree::above(&division, outlet);
        let starts = division.starts(edition);
        let [first, step] =
            [Limit::First, Limit::Step].map(|limit| tree.search(&starts, Some(limit)));
        for search in [&first, &step] {
            assert_eq!(search.starts, listed);
            assert_eq!(search.visited + search.dropped, tree.cells());
        }
        assert_eq!(first.greatest, step.greatest);
        assert!(first.visited >= step.visited);
        let first_edition = (edition == Edition::Second)
            .then(|| tree.search(&division.starts(Edition::First), Some(Limit::Step)));
        if let Some(first) = &first_edition {
            assert!(first.visited <= step.visited && first.greatest >= step.greatest);
        }
        Searches { first, step, first_edition, from_outlet: starts.has(outlet) }
    }
}
