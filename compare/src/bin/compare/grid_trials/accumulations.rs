//! Accumulations for any ground, with rings too.

use second_reading::ground::Ground;

/// An accumulation that fails its equation at as few cells as can be: on rings
/// at one cell each, nowhere else.
pub fn nearly_agreeing(ground: Ground) -> Vec<u32> {
    let mut below: Vec<Option<usize>> = (0..ground.cells())
        .map(|cell| if ground.is_null(cell) { None } else { ground.below(cell) })
        .collect();
    // Cut each ring where a walk comes back to itself.
    let mut seen = vec![usize::MAX; ground.cells()];
    for start in ground.solid() {
        let mut cell = start;
        loop {
            seen[cell] = start;
            match below[cell] {
                Some(next) if seen[next] == start => {
                    below[cell] = None;
                    break;
                }
                Some(next) if seen[next] == usize::MAX => cell = next,
                _ => break,
            }
        }
    }
    let mut awaited = vec![0; ground.cells()];
    below.iter().flatten().for_each(|&cell| awaited[cell] += 1);
    let mut ready: Vec<usize> = ground.solid().filter(|&cell| awaited[cell] == 0).collect();
    let mut sums = vec![0; ground.cells()];
    while let Some(cell) = ready.pop() {
        sums[cell] += 1;
        if let Some(next) = below[cell] {
            sums[next] += sums[cell];
            awaited[next] -= 1;
            if awaited[next] == 0 {
                ready.push(next);
            }
        }
    }
    sums
}
