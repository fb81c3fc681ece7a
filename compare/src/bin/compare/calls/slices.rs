//! A call's slices, as they were lent and as they are due.

use crate::lent::{Difference, Element, Lent};

/// Elements of a slice that a report shows.
const SHOWN: usize = 4200;

/// A lent slice that is only read.
pub struct Input<'a, T> {
    pub name: &'static str,
    pub contents: &'a [T],
    pub lent: Lent<T>,
}

/// A lent slice that may be written: full of noise before the call, and what is due in it
/// afterwards.
pub struct Output<T> {
    pub name: &'static str,
    pub before: Vec<T>,
    pub due: Vec<T>,
    pub lent: Lent<T>,
}

pub trait Compared {
    fn name(&self) -> &'static str;
    fn difference(&self) -> Option<Difference>;
    fn before(&self) -> String;
}

impl<T: Element> Compared for Input<'_, T> {
    fn name(&self) -> &'static str {
        self.name
    }

    fn difference(&self) -> Option<Difference> {
        self.lent.difference(self.contents)
    }

    fn before(&self) -> String {
        format!("{} places, lent to read: {}", self.contents.len(), shown(self.contents))
    }
}

impl<T: Element> Compared for Output<T> {
    fn name(&self) -> &'static str {
        self.name
    }

    fn difference(&self) -> Option<Difference> {
        self.lent.difference(&self.due)
    }

    fn before(&self) -> String {
        format!(
            "{} places, before: {}\n    due after: {}",
            self.before.len(),
            shown(&self.before),
            shown(&self.due)
        )
    }
}

fn shown<T: Element>(contents: &[T]) -> String {
    let words: Vec<String> = contents.iter().take(SHOWN).map(T::to_string).collect();
    let rest = if contents.len() > SHOWN { " ..." } else { "" };
    words.join(" ") + rest
}
