//! Single calls on ground with ponds, with the numbers and grids they must give.

use second_reading::entries::Terrain;
use second_reading::sheet::sheet;

use crate::calls::{Ask, Comparison, Engine, Rooms};

/// 0, 2 and 5 flow to the pond 1; 4, 8 and 9 to the pond 3. 6 is null, and 7 flows off.
const TWO_PONDS: Terrain = Terrain {
    rows: 2,
    cols: 5,
    codes: &[1, 255, 16, 255, 16, 128, 0, 4, 64, 32],
    accumulation: &[1, 4, 1, 4, 1, 1, 0, 1, 1, 1],
};

/// Bytes beside that of a pond.
const NO_PONDS: [u8; 3] = [254, 253, 127];

pub fn ponds(comparison: &mut Comparison) {
    accumulations(comparison);
    subaccumulation(comparison);
    flow_lengths(comparison);
    drawings(comparison);
    bytes_beside(comparison);
    sheets(comparison);
}

fn accumulations(comparison: &mut Comparison) {
    comparison.about("trap: accumulation at ponds".to_string());
    let Terrain { rows, cols, codes, accumulation } = TWO_PONDS;
    let mut accumulated = |rows, cols, codes: &[u8]| {
        let (number, grid) = comparison.accumulated(rows, cols, codes, codes.len());
        assert_eq!(number, 0);
        grid
    };
    assert_eq!(accumulated(rows, cols, codes), accumulation);
    assert_eq!(accumulated(1, 1, &[255]), [1]);
    assert_eq!(accumulated(3, 3, &[255; 9]), [1; 9]);
    assert_eq!(accumulated(1, 2, &[1, 255]), [1, 2]);
    assert_eq!(accumulated(3, 1, &[255, 64, 64]), [3, 2, 1]);

    comparison.about("trap: a ring beside a pond".to_string());
    assert_eq!(comparison.accumulate(1, 3, &[255, 1, 16], 3), 13);

    comparison.about("trap: accumulation that agrees at a pond, and that does not".to_string());
    let mut agreement = |accumulation: &[u32]| {
        let terrain = Terrain { rows: 1, cols: 3, codes: &[1, 255, 1], accumulation };
        comparison.check_accumulation(terrain)
    };
    assert_eq!(agreement(&[1, 2, 1]), 0);
    assert_eq!(agreement(&[1, 0, 1]), 14, "the pond as a null cell");
    assert_eq!(agreement(&[1, 1, 1]), 14, "nothing flows into the pond");
    assert_eq!(agreement(&[1, 2, 3]), 14, "the pond flows on to the east");
    assert_eq!(agreement(&[3, 2, 3]), 14, "the pond flows to both sides");
}

/// By either engine, for the pond 1: it has nothing of what outlets above it have, and the pond 3
/// has its sum whether or not it is an outlet.
fn subaccumulation(comparison: &mut Comparison) {
    comparison.about("trap: subaccumulation at ponds".to_string());
    let cases = [
        (&[1, 7][..], [1, 4, 1, 4, 1, 1, 0, 1, 1, 1]),
        (&[1, 2, 9], [1, 3, 1, 3, 1, 1, 0, 1, 1, 1]),
        (&[1, 3, 5, 8, 9], [1, 3, 1, 2, 1, 1, 0, 1, 1, 1]),
    ];
    for (outlets, due) in cases {
        assert_eq!(comparison.subaccumulate(TWO_PONDS, outlets, 10), 0);
        for engine in [Engine::Stack, Engine::Recursion] {
            let ask = Ask { edition: 1, terrain: TWO_PONDS, outlets, place: 0, dropping: 1 };
            let traced = comparison.trace(engine, ask, Rooms { grid: 10, list: 3, work: 12 });
            assert_eq!((traced.number, &traced.grid[..]), (0, &due[..]));
        }
    }
}

fn flow_lengths(comparison: &mut Comparison) {
    comparison.about("trap: flow lengths at ponds".to_string());
    let mut told = |outlets: &[u32]| {
        let (number, grids) = comparison.flow_lengths(TWO_PONDS, outlets, [10; 4]);
        assert_eq!(number, 0);
        grids
    };
    let grids = told(&[1, 7]);
    assert_eq!(grids[0], [1, 0, 1, 0, 0, 0, 0, 0, 0, 0], "straight, downstream");
    assert_eq!(grids[1], [0, 0, 0, 0, 0, 1, 0, 0, 0, 0], "diagonal, downstream");
    assert_eq!(grids[2], [0; 10], "straight, upstream");
    assert_eq!(grids[3], [0, 1, 0, 0, 0, 0, 0, 0, 0, 0], "diagonal, upstream");
    let grids = told(&[3, 1]);
    assert_eq!(grids[0], [1, 0, 1, 0, 1, 0, 0, 0, 1, 0], "straight, downstream");
    assert_eq!(grids[1], [0, 0, 0, 0, 0, 1, 0, 0, 0, 1], "diagonal, downstream");
    assert_eq!(grids[2], [0; 10], "straight, upstream");
    assert_eq!(grids[3], [0, 1, 0, 1, 0, 0, 0, 0, 0, 0], "diagonal, upstream");
}

fn drawings(comparison: &mut Comparison) {
    comparison.about("trap: drawing to a pond".to_string());
    let mut draw = |place, start| comparison.draw(TWO_PONDS, &[1, 7], place, start, 10);
    assert_eq!(draw(0, 5), (0, vec![5, 1]));
    assert_eq!(draw(0, 2), (0, vec![2, 1]));
    assert_eq!(draw(0, 1), (0, vec![1]));
    assert_eq!(draw(1, 7), (0, vec![7]));
    assert_eq!(draw(0, 3), (22, vec![]), "a pond that is no outlet");
    assert_eq!(draw(0, 9), (22, vec![]), "above a pond that is no outlet");
    assert_eq!(draw(1, 1), (22, vec![]), "another outlet");
    assert_eq!(draw(0, 6), (22, vec![]), "a null cell");
}

/// All grid entries refuse them with 12.
fn bytes_beside(comparison: &mut Comparison) {
    for byte in NO_PONDS {
        comparison.about(format!("trap: {byte} for a pond"));
        let mut codes = TWO_PONDS.codes.to_vec();
        codes[3] = byte;
        let terrain = Terrain { codes: &codes, ..TWO_PONDS };
        assert_eq!(comparison.accumulate(2, 5, &codes, 10), 12);
        assert_eq!(comparison.check_accumulation(terrain), 12);
        assert_eq!(comparison.subaccumulate(terrain, &[1], 10), 12);
        assert_eq!(comparison.flow_lengths(terrain, &[1], [10; 4]).0, 12);
        for engine in [Engine::Stack, Engine::Recursion] {
            let ask = Ask { edition: 1, terrain, outlets: &[1], place: 0, dropping: 1 };
            let traced = comparison.trace(engine, ask, Rooms { grid: 10, list: 3, work: 12 });
            assert_eq!((traced.number, traced.results), (12, [0; 5]));
        }
        assert_eq!(comparison.draw(terrain, &[1], 0, 1, 10), (12, vec![]));
    }
}

fn sheets(comparison: &mut Comparison) {
    comparison.about("trap: ponds on a sheet".to_string());
    let Terrain { rows, cols, codes, .. } = TWO_PONDS;
    let mut file = sheet(rows, cols, codes, &[1, 3]);
    assert_eq!(comparison.read_sheet(&file, 10, 256), 0);
    assert_eq!(comparison.write_sheet(rows, cols, codes, &[1, 3], file.len()), 0);
    // A header has 6 bytes, and 4 stand before a row's codes.
    let at = 6 + 4 + 3;
    assert_eq!(file[at], 255);
    for byte in NO_PONDS {
        file[at] = byte;
        assert_eq!(comparison.read_sheet(&file, 10, 256), 5);
        let mut codes = codes.to_vec();
        codes[3] = byte;
        assert_eq!(comparison.write_sheet(rows, cols, &codes, &[1, 3], file.len()), 5);
    }
}
