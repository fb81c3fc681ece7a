//! The places that the library, plain C and the Rust implementation are lent.

use std::cell::RefCell;
use std::ops::Range;

use crate::measure::{Best, PAGE};

/// The places of the list that tracing lends.
pub const LIST: usize = 1024;

/// The outlets of a long list, and the counts that tracing all of them lends.
pub const OUTLETS: usize = 256;

/// What one of the three is lent. Every place has been written.
pub struct Lent {
    pub accumulation: Vec<u32>,
    pub subaccumulation: Vec<u32>,
    pub starts: Vec<u32>,
    pub counts: Vec<u32>,
    pub work: Paged,
    pub places: Vec<u32>,
    pub bytes: Vec<u8>,
}

/// Numbers that begin a page of memory, in which nothing else stands.
pub struct Paged {
    store: Vec<u32>,
    count: usize,
}

impl Paged {
    fn new(count: usize) -> Self {
        Paged { store: vec![1; count + 2 * PAGE / size_of::<u32>()], count }
    }

    fn places(&self) -> Range<usize> {
        let first = self.store.as_ptr().align_offset(PAGE);
        first..first + self.count
    }

    pub fn all(&mut self) -> &mut [u32] {
        let places = self.places();
        &mut self.store[places]
    }

    pub fn read(&self) -> &[u32] {
        &self.store[self.places()]
    }
}

impl Lent {
    fn new(cells: usize) -> RefCell<Lent> {
        RefCell::new(Lent {
            accumulation: vec![1; cells],
            subaccumulation: vec![1; cells],
            starts: vec![1; LIST],
            counts: vec![1; OUTLETS],
            work: Paged::new(3 * cells),
            places: vec![1; cells],
            bytes: vec![1; cells],
        })
    }

    /// Four grids of so many cells: three in the working space, and the places to draw in.
    pub fn four_grids(&mut self, cells: usize) -> [&mut [u32]; 4] {
        let (first, rest) = self.work.all().split_at_mut(cells);
        let (second, rest) = rest.split_at_mut(cells);
        [first, second, &mut rest[..cells], &mut self.places[..cells]]
    }
}

/// The lent places of all three, for grids of up to so many cells.
pub struct Sets {
    pub library: RefCell<Lent>,
    pub plain: RefCell<Lent>,
    pub rust: RefCell<Lent>,
}

impl Sets {
    pub fn new(cells: usize) -> Self {
        Sets { library: Lent::new(cells), plain: Lent::new(cells), rust: Lent::new(cells) }
    }

    /// Whether all hold the same there; the Rust implementation only if it ran.
    pub fn all_alike<T: PartialEq>(
        &self,
        rust: Option<Best>,
        part: impl Fn(&Lent) -> &[T],
    ) -> bool {
        let same = |other: &RefCell<Lent>| part(&self.library.borrow()) == part(&other.borrow());
        same(&self.plain) && (rust.is_none() || same(&self.rust))
    }
}
