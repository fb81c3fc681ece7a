//! Lengths: a straight and b diagonal steps make a + b√2 cell sides.

use std::cmp::Ordering;

/// The length of a walk so far, kept as its two step counts.
#[derive(Clone, Copy, Debug, PartialEq, Eq, Hash)]
pub struct Length {
    pub straight: u32,
    pub diagonal: u32,
}

impl Length {
    pub const ZERO: Length = Length::new(0, 0);

    pub const fn new(straight: u32, diagonal: u32) -> Self {
        Length { straight, diagonal }
    }

    /// One step longer.
    pub fn with_step(self, diagonal: bool) -> Self {
        if diagonal {
            self.with_diagonals(1)
        } else {
            Length::new(self.straight + 1, self.diagonal)
        }
    }

    /// `n` diagonal steps longer: with `n` cells ahead no walk can be longer
    /// than this, since each cell adds one step of at most √2.
    pub fn with_diagonals(self, n: u32) -> Self {
        Length::new(self.straight, self.diagonal + n)
    }
}

/// 01 compares a + b√2 with c + d√2 by the signs and squares of a − c and
/// b − d. Here instead a − c is held against the whole part of (d − b)√2.
/// Since √2 is irrational the two are equal only where a = c and b = d; else
/// a − c is the greater exactly if it exceeds that whole part.
impl Ord for Length {
    fn cmp(&self, other: &Self) -> Ordering {
        let p = i128::from(self.straight) - i128::from(other.straight);
        let m = i128::from(other.diagonal) - i128::from(self.diagonal);
        if m == 0 {
            p.cmp(&0)
        } else if p > whole_part_of_root_two_times(m) {
            Ordering::Greater
        } else {
            Ordering::Less
        }
    }
}

impl PartialOrd for Length {
    fn partial_cmp(&self, other: &Self) -> Option<Ordering> {
        Some(self.cmp(other))
    }
}

/// The greatest integer not above m√2, for m other than 0.
fn whole_part_of_root_two_times(m: i128) -> i128 {
    let root = (2 * m * m).isqrt();
    if m > 0 {
        root
    } else {
        -root - 1
    }
}

#[cfg(test)]
mod tests {
    use super::*;

    /// The comparison in 01's own words.
    fn by_signs_and_squares(x: Length, y: Length) -> Ordering {
        let p = i128::from(x.straight) - i128::from(y.straight);
        let q = i128::from(x.diagonal) - i128::from(y.diagonal);
        let sign = if q == 0 || (p.signum() == q.signum()) {
            p.signum()
        } else if p == 0 {
            q.signum()
        } else if p * p > 2 * q * q {
            p.signum()
        } else {
            q.signum()
        };
        sign.cmp(&0)
    }

    #[test]
    fn marked_cases_8_and_9() {
        assert!(Length::new(7, 0) < Length::new(0, 5));
        assert!(Length::new(17, 0) > Length::new(0, 12));
    }

    #[test]
    fn agrees_with_signs_and_squares_on_small_lengths() {
        let all = || (0..25).flat_map(|a| (0..25).map(move |b| Length::new(a, b)));
        for x in all() {
            for y in all() {
                assert_eq!(x.cmp(&y), by_signs_and_squares(x, y), "{x:?} {y:?}");
            }
        }
    }

    #[test]
    fn agrees_with_signs_and_squares_near_root_two() {
        // Successive best fractions for √2, up to the width of the counts.
        let (mut a, mut b) = (1u32, 1u32);
        while a < u32::MAX / 4 {
            for (da, db) in [(0, 0), (0, 1), (1, 0), (1, 1)] {
                let straight = Length::new(a + da, 7);
                let diagonal = Length::new(0, b + db + 7);
                assert_eq!(straight.cmp(&diagonal), by_signs_and_squares(straight, diagonal));
                assert_eq!(diagonal.cmp(&straight), by_signs_and_squares(diagonal, straight));
            }
            (a, b) = (a + 2 * b, a + b);
        }
        let widest = Length::new(u32::MAX, 0);
        assert!(widest < Length::new(0, u32::MAX));
        assert!(Length::new(0, u32::MAX) < Length::new(u32::MAX, u32::MAX));
    }
}
