//! Drawing one path.

use second_reading::entries::{self, Terrain};

use super::{number, Comparison};
use crate::tally::Entry;

impl Comparison {
    /// The number, and the path.
    pub fn draw(
        &mut self,
        terrain: Terrain,
        outlets: &[u32],
        place: usize,
        start: u32,
        room: usize,
    ) -> (u32, Vec<u32>) {
        let Terrain { rows, cols, codes, accumulation } = terrain;
        let codes = self.input("codes", codes);
        let accumulation = self.input("accumulation", accumulation);
        let outlets = self.input("outlets", outlets);
        let mut path = self.output("path", room);
        let mut drawn = self.output("drawn", 1);
        let answer = entries::draw(terrain, outlets.contents, place, start, &mut path.due)
            .map(|path| path.to_vec());
        drawn.due = vec![answer.as_ref().map_or(0, |path| path.len() as u32)];
        let found = self.on_small_stack(codes.contents.len(), || {
            jinxbanyan::draw(
                rows,
                cols,
                codes.lent.slice(),
                accumulation.lent.slice(),
                outlets.lent.slice(),
                place,
                start,
                path.lent.slice_mut(),
                drawn.lent.array_mut(),
            )
        });
        let cells = answer.clone().unwrap_or_default();
        let due = number(answer);
        self.settle(
            Entry::Draw,
            format_args!("rows {rows} cols {cols} place {place} start {start}"),
            &[&codes, &accumulation, &outlets, &path, &drawn],
            due,
            found,
        );
        (due, cells)
    }
}
