//! All outlets by one call, with places at, below and above what is needed.

use second_reading::random::Random;

use super::case::Case;
use crate::calls::{AllRooms, Comparison};
use crate::tally::AllCall;

/// A sound case with just the places it needs, also held against a call for each outlet and taken
/// apart into its parts; then with so many mixtures of places just enough, too few and too many.
pub fn around_all_needs(
    comparison: &mut Comparison,
    case: &Case,
    most: usize,
    random: &mut Random,
) {
    let (edition, terrain) = (case.edition, case.terrain());
    let (outlets, needs) = (&case.outlets[..], case.all_rooms());
    let all = comparison.trace_all(edition, terrain, outlets, needs);
    comparison.one_by_one(edition, terrain, outlets, &all);
    comparison.every_part(outlets.len(), &all);
    let most_work = 3 * all.grid.iter().copied().max().unwrap_or(0) as usize;
    let paths: Vec<usize> = all.counts.iter().map(|&count| count as usize).collect();
    let see = |comparison: &mut Comparison, lent: AllRooms, number: u32| {
        assert_eq!(number, number_due(needs, lent), "{}", comparison.subject());
        let call = AllCall { edition, paths: &paths, needs, most_work, lent, number };
        comparison.tally.see_all_call(&call);
    };
    see(comparison, needs, all.number);
    let mut mixtures = mixtures(needs, paths[0], random);
    random.shuffle(&mut mixtures);
    for lent in mixtures.into_iter().take(most) {
        let number = comparison.trace_all(edition, terrain, outlets, lent).number;
        see(comparison, lent, number);
    }
}

/// The number of a sound case by the places it needs and those it lends.
fn number_due(needs: AllRooms, lent: AllRooms) -> u32 {
    if lent.work < needs.work {
        20
    } else if lent.counts < needs.counts {
        23
    } else if lent.list < needs.list {
        21
    } else {
        0
    }
}

/// List, counts and working space, each just enough, too few and too many, in every mixture. The
/// list may be enough for the first outlet's paths alone.
fn mixtures(needs: AllRooms, first: usize, random: &mut Random) -> Vec<AllRooms> {
    let mut around = |need: usize, short: &[usize]| {
        let short: Vec<usize> = short.iter().copied().filter(|&places| places < need).collect();
        [need, random.pick(&short), need + random.between(1, 9)]
    };
    let AllRooms { list, counts, work, .. } = needs;
    let lists = around(list, &[0, first, first, list - 1, list - 1]);
    let all_counts = around(counts, &[0, counts - 1, counts / 2]);
    let works = around(work, &[0, work - 1, work / 3, work / 3 * 2]);
    let mut mixtures = Vec::new();
    for list in lists {
        for counts in all_counts {
            mixtures.extend(works.map(|work| AllRooms { list, counts, work, ..needs }));
        }
    }
    mixtures
}
