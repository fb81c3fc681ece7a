//! Parts of a list of starts by counts that may be anything.

use second_reading::random::Random;

use crate::calls::Comparison;

pub fn run(comparison: &mut Comparison, random: &mut Random) {
    spelled(comparison);
    comparison.about("parts by random counts".to_string());
    for _ in 0..4000 {
        random_counts(comparison, random);
    }
    many_counts(comparison, random);
}

/// Parts with where they begin and how many they have.
fn spelled(comparison: &mut Comparison) {
    comparison.about("trap: parts".to_string());
    let mut part = |starts: usize, counts: &[u32], choice| {
        let starts: Vec<u32> = (0..starts as u32).map(|place| 70 + place).collect();
        comparison.starts_of(&starts, counts, choice)
    };
    const MAX: u32 = u32::MAX;
    const HALF: u32 = 1 << 31;
    assert_eq!(part(5, &[2, 3], 0), (0, 2));
    assert_eq!(part(5, &[2, 3], 1), (2, 3), "up to the end");
    assert_eq!(part(6, &[2, 3], 1), (2, 3), "a place beyond");
    assert_eq!(part(4, &[2, 3], 1), (0, 0), "its own count runs one past the end");
    assert_eq!(part(4, &[2, 3], 0), (0, 2), "what comes after its own does not count");
    assert_eq!(part(2, &[2, 3], 1), (0, 0), "it would begin at the end");
    assert_eq!(part(1, &[2, 3], 1), (0, 0), "it would begin past the end");
    assert_eq!(part(5, &[5], 0), (0, 5));
    assert_eq!(part(5, &[6], 0), (0, 0), "its own count alone runs past");
    assert_eq!(part(5, &[MAX], 0), (0, 0), "its own count alone runs past");
    assert_eq!(part(5, &[1, MAX], 1), (0, 0), "1 + its own count is 0 in 32 bits");
    assert_eq!(part(5, &[1, MAX], 0), (0, 1));
    assert_eq!(part(5, &[3, MAX - 1], 1), (0, 0), "3 + its own count is 1 in 32 bits");

    // Zero counts, before, between and at the end.
    assert_eq!(part(5, &[0, 2, 0, 3, 0], 0), (0, 0));
    assert_eq!(part(5, &[0, 2, 0, 3, 0], 1), (0, 2));
    assert_eq!(part(5, &[0, 2, 0, 3, 0], 2), (0, 0), "empty between others");
    assert_eq!(part(5, &[0, 2, 0, 3, 0], 3), (2, 3));
    assert_eq!(part(5, &[0, 2, 0, 3, 0], 4), (0, 0), "empty at the end");
    assert_eq!(part(4, &[0, 2, 0, 3, 0], 4), (0, 0), "empty past the end");
    assert_eq!(part(0, &[0, 1], 0), (0, 0), "no starts");
    assert_eq!(part(0, &[0, 1], 1), (0, 0), "no starts");

    // Choices outside, some of them inside by their low bits.
    for choice in [2, 3, 256, 1 << 32, (1 << 32) + 1, 1 << 63, (1 << 63) + 1, usize::MAX] {
        assert_eq!(part(5, &[2, 3], choice), (0, 0));
        assert_eq!(part(5, &[], choice), (0, 0));
        assert_eq!(part(0, &[], choice), (0, 0));
    }
    assert_eq!(part(5, &[], 0), (0, 0));

    // Sums that would be 0, 1 and 2 in 32 bits.
    assert_eq!(part(5, &[MAX, 1, 3], 1), (0, 0));
    assert_eq!(part(5, &[MAX, 1, 3], 2), (0, 0));
    assert_eq!(part(5, &[HALF, HALF, 3], 1), (0, 0));
    assert_eq!(part(5, &[HALF, HALF, 3], 2), (0, 0));
    assert_eq!(part(5, &[1, MAX, 1, 3], 3), (0, 0));
    assert_eq!(part(5, &[HALF, HALF + 1, 1, 3], 3), (0, 0));
    // Below 0 with a sign, 2 together.
    assert_eq!(part(5, &[MAX, 3, 2], 1), (0, 0));
    assert_eq!(part(5, &[MAX, 3, 2], 2), (0, 0));
    assert_eq!(part(5, &[HALF], 0), (0, 0));
}

/// Few counts, mostly small ones, about as many together as there are starts.
fn random_counts(comparison: &mut Comparison, random: &mut Random) {
    let mut counts: Vec<u32> =
        (0..random.below(9)).map(|_| random.pick(&[0, 1, 1, 1, 2, 3, 5])).collect();
    let sum: usize = counts.iter().map(|&count| count as usize).sum();
    let starts = random.pick(&[sum, sum, sum + 1, sum.saturating_sub(1), sum / 2, 0]);
    if random.one_in(3) && !counts.is_empty() {
        let place = random.below(counts.len());
        let bits = random.bits() as u32;
        counts[place] = random.pick(&[u32::MAX, u32::MAX - 1, 1 << 31, bits, starts as u32]);
        if random.one_in(2) {
            // Together 0 in 32 bits.
            let place = random.below(counts.len() + 1);
            counts.insert(place, counts.iter().fold(0, |sum, &count| sum.wrapping_sub(count)));
        }
    }
    let starts: Vec<u32> = (0..starts).map(|_| random.bits() as u32).collect();
    for choice in (0..counts.len() + 2).chain([1 << 32, usize::MAX]) {
        comparison.starts_of(&starts, &counts, choice);
    }
}

/// More counts than outlets can be, up to sums that pass 40 bits.
fn many_counts(comparison: &mut Comparison, random: &mut Random) {
    for (count, most) in [(257, 3), (600, 1), (5000, 2), (5000, 0), (300, u32::MAX as usize)] {
        comparison.about(format!("parts by {count} counts up to {most}"));
        let counts: Vec<u32> = (0..count).map(|_| random.between(0, most) as u32).collect();
        let sum: usize = counts.iter().map(|&count| count as usize).sum();
        for starts in [sum, sum.saturating_sub(1), sum / 2] {
            let starts: Vec<u32> = (0..starts.min(10_000)).map(|_| random.bits() as u32).collect();
            let some = (0..60).map(|_| random.below(count));
            for choice in some.chain([0, 255, 256, count - 2, count - 1, count, usize::MAX]) {
                comparison.starts_of(&starts, &counts, choice);
            }
        }
    }
    comparison.about("parts by counts that all are the greatest".to_string());
    for choice in [0, 1, 255, 256, 70_000, 70_001] {
        assert_eq!(comparison.starts_of(&[7; 9], &[u32::MAX; 70_001], choice), (0, 0));
    }
}
