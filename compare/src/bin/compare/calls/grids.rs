//! Accumulation, its check, subaccumulation, and flow lengths.

use second_reading::entries::{self, Terrain};

use super::{number, Comparison};
use crate::tally::Entry;

impl Comparison {
    pub fn accumulate(&mut self, rows: usize, cols: usize, codes: &[u8], room: usize) -> u32 {
        self.accumulated(rows, cols, codes, room).0
    }

    /// The number, and the grid.
    pub fn accumulated(
        &mut self,
        rows: usize,
        cols: usize,
        codes: &[u8],
        room: usize,
    ) -> (u32, Vec<u32>) {
        let codes = self.input("codes", codes);
        let mut grid = self.output("accumulation", room);
        let due = number(entries::accumulate(rows, cols, codes.contents, &mut grid.due));
        let found = self.on_small_stack(codes.contents.len(), || {
            jinxbanyan::accumulate(rows, cols, codes.lent.slice(), grid.lent.slice_mut())
        });
        let arguments = format_args!("rows {rows} cols {cols}");
        self.settle(Entry::Accumulate, arguments, &[&codes, &grid], due, found);
        (due, grid.due)
    }

    pub fn check_accumulation(&mut self, terrain: Terrain) -> u32 {
        let Terrain { rows, cols, codes, accumulation } = terrain;
        let codes = self.input("codes", codes);
        let accumulation = self.input("accumulation", accumulation);
        let due = number(entries::check_accumulation(terrain));
        let found = self.on_small_stack(codes.contents.len(), || {
            let (codes, accumulation) = (codes.lent.slice(), accumulation.lent.slice());
            jinxbanyan::check_accumulation(rows, cols, codes, accumulation)
        });
        let arguments = format_args!("rows {rows} cols {cols}");
        self.settle(Entry::CheckAccumulation, arguments, &[&codes, &accumulation], due, found);
        due
    }

    pub fn subaccumulate(&mut self, terrain: Terrain, outlets: &[u32], room: usize) -> u32 {
        let Terrain { rows, cols, codes, accumulation } = terrain;
        let codes = self.input("codes", codes);
        let accumulation = self.input("accumulation", accumulation);
        let outlets = self.input("outlets", outlets);
        let mut grid = self.output("subaccumulation", room);
        let due = number(entries::subaccumulate(terrain, outlets.contents, &mut grid.due));
        let found = self.on_small_stack(codes.contents.len(), || {
            jinxbanyan::subaccumulate(
                rows,
                cols,
                codes.lent.slice(),
                accumulation.lent.slice(),
                outlets.lent.slice(),
                grid.lent.slice_mut(),
            )
        });
        self.settle(
            Entry::Subaccumulate,
            format_args!("rows {rows} cols {cols}"),
            &[&codes, &accumulation, &outlets, &grid],
            due,
            found,
        );
        due
    }

    /// The number, and the four grids: straight and diagonal steps downstream, then upstream.
    pub fn flow_lengths(
        &mut self,
        terrain: Terrain,
        outlets: &[u32],
        rooms: [usize; 4],
    ) -> (u32, [Vec<u32>; 4]) {
        let Terrain { rows, cols, codes, accumulation } = terrain;
        let codes = self.input("codes", codes);
        let accumulation = self.input("accumulation", accumulation);
        let outlets = self.input("outlets", outlets);
        let names = ["down_straight", "down_diagonal", "up_straight", "up_diagonal"];
        let mut grids = [0, 1, 2, 3].map(|at| self.output(names[at], rooms[at]));
        let lent = grids.each_mut().map(|grid| &mut grid.due[..]);
        let due = number(entries::flow_lengths(terrain, outlets.contents, lent));
        let found = self.on_small_stack(codes.contents.len(), || {
            let [down_straight, down_diagonal, up_straight, up_diagonal] =
                grids.each_mut().map(|grid| grid.lent.slice_mut());
            jinxbanyan::flow_lengths(
                rows,
                cols,
                codes.lent.slice(),
                accumulation.lent.slice(),
                outlets.lent.slice(),
                down_straight,
                down_diagonal,
                up_straight,
                up_diagonal,
            )
        });
        let [a, b, c, d] = &grids;
        self.settle(
            Entry::FlowLengths,
            format_args!("rows {rows} cols {cols}"),
            &[&codes, &accumulation, &outlets, a, b, c, d],
            due,
            found,
        );
        (due, grids.map(|grid| grid.due))
    }
}
