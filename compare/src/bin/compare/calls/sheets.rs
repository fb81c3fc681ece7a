//! Reading and writing a sheet.

use second_reading::sheet;

use super::{number, Comparison};
use crate::tally::Entry;

impl Comparison {
    pub fn read_sheet(&mut self, file: &[u8], codes_room: usize, outlets_room: usize) -> u32 {
        let file = self.input("file", file);
        let mut codes = self.output("codes", codes_room);
        let mut outlets = self.output("outlets", outlets_room);
        let mut shape = self.output("shape", 3);
        let answer = sheet::read(file.contents, &mut codes.due, &mut outlets.due);
        shape.due = answer.map_or(vec![0; 3], |shape| {
            [shape.rows, shape.cols, shape.outlets].map(|number| number as u32).to_vec()
        });
        let found = jinxbanyan::read_sheet(
            file.lent.slice(),
            codes.lent.slice_mut(),
            outlets.lent.slice_mut(),
            shape.lent.array_mut(),
        );
        let due = number(answer);
        self.settle(
            Entry::ReadSheet,
            format_args!(""),
            &[&file, &codes, &outlets, &shape],
            due,
            found,
        );
        due
    }

    pub fn write_sheet(
        &mut self,
        rows: usize,
        cols: usize,
        codes: &[u8],
        outlets: &[u32],
        room: usize,
    ) -> u32 {
        let codes = self.input("codes", codes);
        let outlets = self.input("outlets", outlets);
        let mut file = self.output("file", room);
        let mut size = self.output("size", 1);
        let answer = sheet::write(rows, cols, codes.contents, outlets.contents, &mut file.due);
        size.due = vec![answer.unwrap_or(0) as u32];
        let found = jinxbanyan::write_sheet(
            rows,
            cols,
            codes.lent.slice(),
            outlets.lent.slice(),
            file.lent.slice_mut(),
            size.lent.array_mut(),
        );
        let due = number(answer);
        self.settle(
            Entry::WriteSheet,
            format_args!("rows {rows} cols {cols}"),
            &[&codes, &outlets, &file, &size],
            due,
            found,
        );
        due
    }
}
