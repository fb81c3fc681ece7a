//! Slices lent to the host library, each between two fences.

use std::fmt::Display;
use std::hint::black_box;

use second_reading::random::Random;

/// Elements of a fence. An odd number, so that bytes are lent at odd places.
const FENCE: usize = 17;

/// What can be lent: bytes, 32-bit numbers, and numbers of places.
pub trait Element: Copy + PartialEq + Display {
    fn noise(random: &mut Random) -> Self;
}

impl Element for u8 {
    /// Mostly a code that would be believed if it were read.
    fn noise(random: &mut Random) -> u8 {
        let bits = random.bits();
        if bits & 3 == 0 {
            (bits >> 8) as u8
        } else {
            1 << ((bits >> 8) & 7)
        }
    }
}

impl Element for u32 {
    fn noise(random: &mut Random) -> u32 {
        random.bits() as u32
    }
}

impl Element for usize {
    fn noise(random: &mut Random) -> usize {
        random.bits() as usize
    }
}

pub fn noise<T: Element>(count: usize, random: &mut Random) -> Vec<T> {
    (0..count).map(|_| T::noise(random)).collect()
}

/// A slice as the host library gets it.
pub struct Lent<T> {
    store: Vec<T>,
    fences: Vec<T>,
}

/// A place where a lent slice holds something else than it should. Places
/// before the slice are negative.
pub struct Difference {
    pub place: isize,
    pub due: String,
    pub found: String,
}

impl<T: Element> Lent<T> {
    pub fn new(contents: &[T], random: &mut Random) -> Self {
        let fences = noise(2 * FENCE, random);
        let (before, after) = fences.split_at(FENCE);
        Lent { store: [before, contents, after].concat(), fences }
    }

    /// The slice, to be read.
    pub fn slice(&self) -> &[T] {
        &self.store[FENCE..self.store.len() - FENCE]
    }

    /// The slice, to be written.
    pub fn slice_mut(&mut self) -> &mut [T] {
        let end = self.store.len() - FENCE;
        &mut self.store[FENCE..end]
    }

    /// The slice as a place for so many results.
    pub fn array_mut<const N: usize>(&mut self) -> &mut [T; N] {
        self.slice_mut().try_into().expect("a place for each result")
    }

    /// The first difference from what is due, fences included.
    pub fn difference(&self, due: &[T]) -> Option<Difference> {
        // The compiler may take it for granted that a call changes neither a slice that it was
        // lent to read nor a fence. Just that is in question, so it must not know that what is
        // compared here is what was lent there.
        let store = black_box(self.store.as_slice());
        let (before, after) = self.fences.split_at(FENCE);
        let inner = FENCE..FENCE + due.len();
        let parts = [
            (&store[..inner.start], before, 0),
            (&store[inner.clone()], due, inner.start),
            (&store[inner.end..], after, inner.end),
        ];
        for (found, due, from) in parts {
            if found != due {
                let at = (0..due.len()).find(|&at| found[at] != due[at])?;
                return Some(Difference {
                    place: (from + at) as isize - FENCE as isize,
                    due: due[at].to_string(),
                    found: found[at].to_string(),
                });
            }
        }
        None
    }
}
