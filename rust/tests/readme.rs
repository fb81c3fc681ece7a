//! README's six lines, and what they find on each sample.

use std::fs;
use std::panic::catch_unwind;
use std::path::{Path, PathBuf};

use jinxbanyan::*;

/// The first outlet of a sheet; the lines in it are README's.
fn trace(file: &[u8], starts: &mut [u32], results: &mut [u32; 5]) -> u32 {
    let (codes, outlets, shape) = (&mut [0; 4096], &mut [0; 256], &mut [0; 3]);
    let (accumulation, grid, work) = (&mut [0; 4096], &mut [0; 4096], &mut [0; 3 * 4096]);
    assert_eq!(read_sheet(file, codes, outlets, shape), 0);
    let (rows, cols, list) = (shape[0] as usize, shape[1] as usize, &outlets[..shape[2] as usize]);
    assert_eq!(accumulate(rows, cols, codes, accumulation), 0);
    trace_by_stack(1, rows, cols, codes, accumulation, list, 0, true, grid, starts, work, results)
}

fn root() -> PathBuf {
    Path::new(env!("CARGO_MANIFEST_DIR")).join("..")
}

#[test]
fn readme_has_the_lines() {
    let source = include_str!("readme.rs").lines();
    let lines = source.skip_while(|line| !line.starts_with("fn trace(")).skip(1);
    let lines: Vec<&str> = lines.take_while(|&line| line != "}").collect();
    assert_eq!(lines.len(), 6);
    let readme = fs::read_to_string(root().join("README.md")).unwrap();
    assert!(readme.contains(&format!("\n\n{}\n\n", lines.join("\n"))), "README's lines are others");
}

#[test]
fn the_example() {
    let file = fs::read(root().join("samples/example.sheet")).unwrap();
    let (mut starts, mut results) = ([9; 2], [9; 5]);
    assert_eq!(trace(&file, &mut starts, &mut results), 0);
    assert_eq!(results, [2, 0, 1, 3, 1]);
    assert_eq!(starts, [3, 9]);
}

/// The numbers of a line.
fn numbers(line: &str) -> Vec<u32> {
    line.split(' ').filter_map(|word| word.parse().ok()).collect()
}

/// What the desk prints for a sample says what the lines find.
fn on_sample(file: &[u8], text: &str) {
    let (mut starts, mut results) = ([9; 4096], [9; 5]);
    let mut lines = text.lines();
    let first = lines.next().unwrap();
    if let Some(number) = first.strip_prefix("refused ") {
        match number.parse().unwrap() {
            // Reading or accumulating refuses.
            1..=13 => assert!(catch_unwind(|| trace(file, &mut [], &mut [9; 5])).is_err()),
            number => assert_eq!(trace(file, &mut starts, &mut results), number),
        }
        return;
    }
    assert_eq!(trace(file, &mut starts, &mut results), 0);
    // Its place, row, column and cells stand before the results.
    assert_eq!(results, numbers(lines.next().unwrap())[4..]);
    let cols = numbers(first)[1];
    let paths = lines.map_while(|line| line.strip_prefix("path ")).map(numbers);
    let due: Vec<u32> = paths.map(|cell| cell[0] * cols + cell[1]).collect();
    assert_eq!(due.len(), results[2] as usize);
    assert_eq!(due, starts[..due.len()]);
    assert!(starts[due.len()..].iter().all(|&start| start == 9));
}

#[test]
fn every_sample() {
    let mut sheets = 0;
    for entry in fs::read_dir(root().join("samples")).unwrap() {
        let path = entry.unwrap().path();
        if path.extension().is_some_and(|extension| extension == "sheet") {
            println!("{}", path.display());
            let text = fs::read_to_string(path.with_extension("txt")).unwrap();
            on_sample(&fs::read(&path).unwrap(), &text);
            sheets += 1;
        }
    }
    assert!(sheets >= 12);
}
