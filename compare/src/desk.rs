//! The desk program: one sheet in, its whole output out.

use std::fmt::Write;

use crate::entries::{self, Kind, Terrain, MOST_OUTLETS};
use crate::{sheet, Refusal};

/// The edition that the desk program traces by.
const EDITION: u32 = 1;

/// Places of the desk program's grids and of its list of starts.
const PLACES: usize = 4096;

/// What the desk program prints for a file. A refusal, of reading first, then
/// of accumulating, then of tracing, is all that is printed.
pub fn output(file: &[u8]) -> String {
    report(file).unwrap_or_else(|Refusal(number)| format!("refused {number}\n"))
}

/// Reads, accumulates, and traces each outlet by stack with dropping. A sheet
/// without outlets is refused as tracing would refuse it.
fn report(file: &[u8]) -> Result<String, Refusal> {
    let mut codes = [0; PLACES];
    let mut outlets = [0; MOST_OUTLETS];
    let shape = sheet::read(file, &mut codes, &mut outlets)?;
    let (rows, cols) = (shape.rows, shape.cols);
    let outlets = &outlets[..shape.outlets];

    let mut accumulation = [0; PLACES];
    entries::accumulate(rows, cols, &codes, &mut accumulation)?;
    let terrain = Terrain { rows, cols, codes: &codes, accumulation: &accumulation };

    let mut text = String::new();
    let mut line = |words: std::fmt::Arguments| {
        writeln!(text, "{words}").expect("a string takes every line");
    };
    line(format_args!("catchment {rows} {cols} outlets {}", outlets.len()));
    let mut subaccumulation = [0; PLACES];
    let mut starts = [0; PLACES];
    let mut work = [0; 3 * PLACES];
    for place in 0..outlets.len().max(1) {
        let tracing = entries::trace_by_stack(
            EDITION,
            terrain,
            outlets,
            place,
            true,
            &mut subaccumulation,
            &mut starts,
            &mut work,
        );
        let Kind::Found { length, paths } = tracing.kind else {
            return Err(Refusal(tracing.number()));
        };
        let outlet = outlets[place] as usize;
        line(format_args!(
            "outlet {} at {} {} cells {} straight {} diagonal {} paths {} visited {} dropped {}",
            place + 1,
            outlet / cols,
            outlet % cols,
            subaccumulation[outlet],
            length.straight,
            length.diagonal,
            paths,
            tracing.visited,
            tracing.dropped,
        ));
        for &start in &starts[..paths as usize] {
            line(format_args!("path {} {}", start as usize / cols, start as usize % cols));
        }
    }
    Ok(text)
}

#[cfg(test)]
mod tests {
    use super::*;

    fn output_of(rows: usize, cols: usize, codes: &[u8], outlets: &[u32]) -> String {
        output(&sheet::sheet(rows, cols, codes, outlets))
    }

    #[test]
    fn the_example() {
        assert_eq!(
            output_of(1, 4, &[1, 4, 16, 16], &[1]),
            "catchment 1 4 outlets 1\n\
             outlet 1 at 0 1 cells 4 straight 2 diagonal 0 paths 1 visited 3 dropped 1\n\
             path 0 3\n"
        );
    }

    #[test]
    fn several_outlets() {
        assert_eq!(
            output_of(3, 3, &[2, 4, 8, 1, 4, 16, 1, 4, 16], &[7, 4]),
            "catchment 3 3 outlets 2\n\
             outlet 1 at 2 1 cells 3 straight 1 diagonal 0 paths 2 visited 3 dropped 0\n\
             path 2 2\n\
             path 2 0\n\
             outlet 2 at 1 1 cells 6 straight 0 diagonal 1 paths 2 visited 5 dropped 1\n\
             path 0 0\n\
             path 0 2\n"
        );
    }

    #[test]
    fn ponds() {
        assert_eq!(
            output_of(1, 4, &[1, 255, 16, 16], &[1]),
            "catchment 1 4 outlets 1\n\
             outlet 1 at 0 1 cells 4 straight 2 diagonal 0 paths 1 visited 3 dropped 1\n\
             path 0 3\n"
        );
        // One is an outlet alone, the other none though a cell flows there.
        assert_eq!(
            output_of(2, 2, &[255, 4, 0, 255], &[0]),
            "catchment 2 2 outlets 1\n\
             outlet 1 at 0 0 cells 1 straight 0 diagonal 0 paths 1 visited 1 dropped 0\n\
             path 0 0\n"
        );
    }

    #[test]
    fn refusals_print_nothing_else() {
        assert_eq!(output(b""), "refused 1\n");
        assert_eq!(output_of(1, 2, &[1, 16], &[]), "refused 13\n");
        assert_eq!(output_of(1, 2, &[1, 1], &[]), "refused 15\n");
        assert_eq!(output_of(1, 2, &[1, 0], &[0, 0, 1]), "refused 16\n");
        assert_eq!(output_of(1, 2, &[1, 0], &[0, 0]), "refused 17\n");
    }
}
