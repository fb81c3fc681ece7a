//! Stack that the calls take.

use crate::grounds::serpent;
use crate::measure::stack;
use crate::tables::{grouped, table};
use crate::trials::{accepted, largest, EDITION, FROM, LIST, MOST_BY_RECURSION, TO};

/// The stack that each call takes on a serpent, its outlet the lowest cell that has 4,096 at most.
pub fn stacks() {
    println!("### Stack, serpent, bytes\n");
    let mut columns = Vec::new();
    for side in [64, 1024] {
        columns.push(stacks_of(side));
    }
    let rows: Vec<Vec<String>> = (0..columns[0].len())
        .map(|row| {
            let (work, bytes) = columns[0][row];
            let more = columns[1][row].1;
            vec![work.to_string(), grouped(bytes), grouped(more)]
        })
        .collect();
    table(1, &["call of the library", "64²", "1,024²"], &rows);
    let recursion = columns[0].last().expect("a row").1;
    println!(
        "Recursion takes {} bytes for each of {} cells of one walk.\n",
        recursion / MOST_BY_RECURSION as usize,
        grouped(MOST_BY_RECURSION as usize)
    );
}

fn stacks_of(side: usize) -> Vec<(&'static str, usize)> {
    let field = serpent(side);
    let cells = field.cells();
    let mut accumulation = vec![1; cells];
    let accumulate = stack(|| {
        accepted(jinxbanyan::accumulate(side, side, &field.codes, &mut accumulation));
    });
    let (codes, accumulation) = (&field.codes[..], &accumulation[..]);
    let outlets = [largest(accumulation, MOST_BY_RECURSION)];
    let (mut grid, mut starts, mut work) = (vec![1; cells], [1; LIST], vec![1; 3 * cells]);
    let check = stack(|| {
        accepted(jinxbanyan::check_accumulation(side, side, codes, accumulation));
    });
    let mut converted = vec![1; cells];
    let convert = stack(|| {
        accepted(jinxbanyan::convert(FROM, TO, side, side, codes, &mut converted));
    });
    let subaccumulate = stack(|| {
        let grid = &mut grid;
        accepted(jinxbanyan::subaccumulate(side, side, codes, accumulation, &outlets, grid));
    });
    let flow_lengths = stack(|| {
        let (first, rest) = work.split_at_mut(cells);
        let (second, third) = rest.split_at_mut(cells);
        accepted(jinxbanyan::flow_lengths(
            side,
            side,
            codes,
            accumulation,
            &outlets,
            first,
            second,
            third,
            &mut grid,
        ));
    });
    let draw = stack(|| {
        let (path, drawn) = (&mut work, &mut [0]);
        let number = jinxbanyan::draw(side, side, codes, accumulation, &outlets, 0, 0, path, drawn);
        accepted(number);
    });
    let mut measured = vec![
        ("accumulate", accumulate),
        ("check 14", check),
        ("convert", convert),
        ("subaccumulate", subaccumulate),
        ("flow lengths", flow_lengths),
        ("draw", draw),
    ];
    for (name, dropping) in [("trace by stack", false), ("trace by stack, dropping", true)] {
        let bytes = stack(|| {
            accepted(jinxbanyan::trace_by_stack(
                EDITION,
                side,
                side,
                codes,
                accumulation,
                &outlets,
                0,
                dropping,
                &mut grid,
                &mut starts,
                &mut work,
                &mut [0; 5],
            ));
        });
        measured.push((name, bytes));
    }
    let trace_all = stack(|| {
        accepted(jinxbanyan::trace_all(
            EDITION,
            side,
            side,
            codes,
            accumulation,
            &outlets,
            &mut grid,
            &mut starts,
            &mut [1],
            &mut work,
            &mut [0; 2],
        ));
    });
    measured.push(("trace all", trace_all));
    for (name, dropping) in [("trace by recursion", false), ("trace by recursion, dropping", true)]
    {
        let bytes = stack(|| {
            accepted(jinxbanyan::trace_by_recursion(
                EDITION,
                side,
                side,
                codes,
                accumulation,
                &outlets,
                0,
                dropping,
                &mut grid,
                &mut starts,
                &mut [0; 5],
            ));
        });
        measured.push((name, bytes));
    }
    measured
}
