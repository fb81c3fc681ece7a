//! What calls for all outlets of a list came to, and the parts of their starts.

use crate::calls::AllRooms;

/// A call for all outlets that passes every check before 20: what it would need, what it lent, and
/// the number that came.
pub struct AllCall<'a> {
    pub edition: u32,
    /// The longest paths of each outlet, in list order.
    pub paths: &'a [usize],
    pub needs: AllRooms,
    /// What 20 would ask for if it took the greatest subaccumulation of any cell.
    pub most_work: usize,
    pub lent: AllRooms,
    pub number: u32,
}

/// Something to be seen of it.
type Sight = (&'static str, fn(&AllCall) -> bool);

pub const ALL_CALLS: [Sight; 8] = [
    ("several outlets and ties, accepted", |call| {
        call.number == 0 && call.paths.len() > 1 && call.paths.iter().any(|&paths| paths > 1)
    }),
    ("256 outlets, accepted", |call| call.number == 0 && call.paths.len() == 256),
    ("several outlets by edition 2, accepted", |call| {
        call.number == 0 && call.edition == 2 && call.paths.len() > 1
    }),
    ("21 where the first outlet's paths would fit", |call| {
        call.number == 21 && call.lent.list >= call.paths[0]
    }),
    ("21 where one place is missing", |call| {
        call.number == 21 && call.lent.list + 1 == call.needs.list
    }),
    ("no 20 where the greatest cell, no listed outlet, would need more", |call| {
        call.number != 20 && call.lent.work < call.most_work
    }),
    ("20 where counts and list are too short as well", |call| {
        call.number == 20
            && call.lent.counts < call.needs.counts
            && call.lent.list < call.needs.list
    }),
    ("23 where the list is too short as well", |call| {
        call.number == 23 && call.lent.list < call.needs.list
    }),
];

/// The part that came for a choice, of so many starts and by these counts.
pub struct Part<'a> {
    pub starts: usize,
    pub counts: &'a [u32],
    pub choice: usize,
    /// How many starts it has.
    pub count: usize,
}

impl Part<'_> {
    fn is_outside(&self) -> bool {
        self.choice >= self.counts.len()
    }

    /// Its own count, if it has one and the counts before do not run past the starts.
    fn own(&self) -> Option<u32> {
        let before = self.counts.get(..self.choice)?.iter().map(|&count| u128::from(count));
        self.counts
            .get(self.choice)
            .copied()
            .filter(|_| before.sum::<u128>() <= self.starts as u128)
    }
}

type PartSight = (&'static str, fn(&Part) -> bool);

pub const PARTS: [PartSight; 6] = [
    ("some starts", |part| part.count > 0),
    ("some starts, of more than 256 counts", |part| part.count > 0 && part.counts.len() > 256),
    ("none, the choice outside the counts", |part| part.is_outside()),
    ("none, its own count being 0", |part| part.own() == Some(0)),
    ("none, the counts before its own past the list", |part| {
        !part.is_outside() && part.own().is_none()
    }),
    ("none, its own count past the list", |part| {
        part.count == 0 && part.own().is_some_and(|own| own > 0)
    }),
];
