//! What can be wrong with a call.

use second_reading::ground::{is_code, Ground, NULL, POND};
use second_reading::random::Random;

use super::case::Case;
use crate::calls::{Comparison, NO_EDITIONS};

/// The case with one damage of every kind, then with several at once.
pub fn damaged(comparison: &mut Comparison, case: &Case, several: usize, random: &mut Random) {
    let subject = comparison.subject().to_string();
    let large = case.codes.len() > 1100;
    for (name, damage) in DAMAGES {
        if large && random.one_in(2) {
            continue;
        }
        comparison.about(format!("{subject}, {name}"));
        let mut worse = case.clone();
        damage(&mut worse, random);
        worse.every_entry(comparison, random);
    }
    for _ in 0..several {
        let mut worse = case.clone();
        let mut names = Vec::new();
        for _ in 0..random.between(2, 3) {
            let (name, damage) = random.pick(&DAMAGES);
            damage(&mut worse, random);
            names.push(name);
        }
        comparison.about(format!("{subject}, {}", names.join(", ")));
        worse.every_entry(comparison, random);
    }
    comparison.about(subject);
}

type Damage = (&'static str, fn(&mut Case, &mut Random));

/// What can be done to a sound case. Some of it leaves the case sound.
const DAMAGES: [Damage; 27] = [
    ("odd edition", |case, random| case.edition = random.pick(&NO_EDITIONS)),
    ("other edition", |case, _| case.edition ^= 3),
    ("odd rows", |case, random| case.rows = odd_side(case.rows, random)),
    ("odd columns", |case, random| case.cols = odd_side(case.cols, random)),
    ("odd sides", |case, random| {
        let high = 1 << 32;
        let sides = [(high, high), (0, 0), (0, 4097), (4097, 1), (1 << 63, 2), (high, 1 << 33)];
        (case.rows, case.cols) = random.pick(&sides);
    }),
    ("other sides", |case, random| {
        let (rows, cols) = (case.rows, case.cols);
        let sides = [
            (cols, rows),
            (rows.wrapping_add(1), cols),
            (rows, cols.wrapping_add(1)),
            (4096, 4096),
            (1, 1),
        ];
        (case.rows, case.cols) = random.pick(&sides);
    }),
    ("codes one short", |case, _| {
        case.codes.pop();
    }),
    ("no codes", |case, _| case.codes.clear()),
    ("accumulation one short", |case, _| {
        case.accumulation.pop();
    }),
    ("written grid one short", |case, random| {
        case.grid_room = case.grid_room.saturating_sub(1);
        let room = &mut case.length_rooms[random.below(4)];
        *room = room.saturating_sub(1);
    }),
    ("all longer", |case, random| {
        for _ in 0..random.between(1, 9) {
            case.codes.push(random.bits() as u8);
            case.accumulation.push(random.bits() as u32);
        }
        case.grid_room += random.between(1, 9);
        case.length_rooms = case.length_rooms.map(|room| room + random.between(1, 9));
        case.list_room += random.between(1, 9);
        case.work_room += random.between(1, 9);
        case.path_room += random.between(1, 9);
        case.all_list_room += random.between(1, 9);
        case.counts_room += random.between(1, 9);
        case.all_work_room += random.between(1, 9);
    }),
    ("bad code", |case, random| {
        if let Some(cell) = Case::any_place(case.codes.len(), random) {
            case.codes[cell] = random.pick(&BAD_CODES);
        }
    }),
    ("other code", |case, random| {
        if let Some(cell) = Case::any_place(case.codes.len(), random) {
            case.codes[cell] = random.pick(&[0, 1, 2, 4, 8, 16, 32, 64, 128, 255, 255]);
        }
    }),
    ("wrong accumulation", |case, random| {
        if let Some(cell) = Case::any_place(case.accumulation.len(), random) {
            let number = case.accumulation[cell];
            let bit = 1 << random.below(32);
            let wrong = [
                number.wrapping_add(1),
                number.wrapping_sub(1),
                number ^ bit,
                number.wrapping_add(1 << 31),
                0,
                u32::MAX,
            ];
            case.accumulation[cell] = random.pick(&wrong);
        }
    }),
    ("wrong accumulation downstream", |case, random| {
        // Only the first cell's equation fails.
        let Some(sound) = sound_ground(case) else { return };
        let solid: Vec<usize> = sound.solid().collect();
        if solid.is_empty() || case.accumulation.len() < sound.cells() {
            return;
        }
        let start = random.pick(&solid);
        let more = random.pick(&[1, u32::MAX, 1 << 31, 7]);
        let walk: Vec<usize> = sound.walk(start).collect();
        for cell in walk {
            let number = &mut case.accumulation[cell];
            *number = number.wrapping_add(more);
        }
    }),
    ("accumulation at a null cell or a pond", |case, random| {
        let last = case.codes.len().min(case.accumulation.len());
        let there: Vec<usize> =
            (0..last).filter(|&cell| [NULL, POND].contains(&case.codes[cell])).collect();
        if !there.is_empty() {
            case.accumulation[random.pick(&there)] = random.pick(&[0, 1, 2, u32::MAX]);
        }
    }),
    ("no outlets", |case, _| case.outlets.clear()),
    ("many outlets", |case, random| {
        let count = random.pick(&[255, 256, 257, 258, 300, 512]);
        let cells = case.codes.len().max(1) as u32;
        let solid: Vec<u32> =
            (0..cells).filter(|&cell| case.codes.get(cell as usize) != Some(&0)).collect();
        if solid.len() >= count {
            case.outlets = solid[..count].to_vec();
        } else {
            let some = if solid.is_empty() { vec![0] } else { solid };
            case.outlets = (0..count).map(|at| some[at % some.len()]).collect();
        }
    }),
    ("null outlet", |case, random| {
        let cells = case.codes.len() as u32;
        let null: Vec<u32> = (0..cells).filter(|&cell| case.codes[cell as usize] == 0).collect();
        if let (Some(place), false) = (Case::any_place(case.outlets.len(), random), null.is_empty())
        {
            case.outlets[place] = random.pick(&null);
        }
    }),
    ("outlet beyond", |case, random| {
        let cells = case.codes.len() as u32;
        if let Some(place) = Case::any_place(case.outlets.len(), random) {
            let old = case.outlets[place];
            let beyond = [cells, cells + 1, u32::MAX, 1 << 31, old | 1 << 31, old ^ 1 << 16];
            case.outlets[place] = random.pick(&beyond);
        }
    }),
    ("repeated outlet", |case, random| {
        if case.outlets.is_empty() {
            return;
        }
        let again = random.pick(&case.outlets);
        if random.one_in(2) && case.outlets.len() > 1 {
            let place = random.below(case.outlets.len());
            case.outlets[place] = again;
        } else {
            case.outlets.push(again);
        }
    }),
    ("place beyond", |case, random| {
        let count = case.outlets.len();
        let beyond = [
            count,
            count + 1,
            256,
            case.place.wrapping_add(1 << 32),
            case.place.wrapping_add(1 << 63),
            usize::MAX,
        ];
        case.place = random.pick(&beyond);
    }),
    ("short list", |case, random| {
        for room in [&mut case.list_room, &mut case.all_list_room] {
            *room = random.pick(&[0, room.saturating_sub(1), *room / 2]);
        }
    }),
    ("short counts", |case, random| {
        let need = case.counts_room;
        case.counts_room = random.pick(&[0, need.saturating_sub(1), need / 2]);
    }),
    ("short working space", |case, random| {
        for room in [&mut case.work_room, &mut case.all_work_room] {
            *room = random.pick(&[0, room.saturating_sub(1), *room / 3, *room / 3 * 2]);
        }
    }),
    ("odd start", |case, random| {
        let cells = case.codes.len() as u32;
        let any = case.any_cell(random) as u32;
        case.start = random.pick(&[cells, cells + 1, u32::MAX, any, any, case.start | 1 << 31]);
    }),
    ("short path", |case, random| {
        case.path_room = random.pick(&[0, case.path_room.saturating_sub(1), case.path_room / 2]);
    }),
];

/// The ground of a case whose codes are still whole, sound and without rings.
fn sound_ground(case: &Case) -> Option<Ground<'_>> {
    let cells = case.rows.checked_mul(case.cols)?;
    if case.rows == 0 || case.cols == 0 || case.codes.len() < cells {
        return None;
    }
    let sound = case.codes[..cells].iter().all(|&code| is_code(code));
    let ground = Ground::new(case.rows, case.cols, &case.codes);
    (sound && !ground.has_ring()).then_some(ground)
}

/// Sides that no grid has, and sides that are right only in their low bits.
fn odd_side(right: usize, random: &mut Random) -> usize {
    let sides = [
        0,
        4097,
        4098,
        1 << 16,
        right.wrapping_add(1 << 16),
        1 << 32,
        right.wrapping_add(1 << 32),
        1 << 63,
        right.wrapping_add(1 << 63),
        usize::MAX,
        usize::MAX - 1,
        usize::MAX / 2,
        0usize.wrapping_sub(right),
    ];
    random.pick(&sides)
}

const BAD_CODES: [u8; 12] = [3, 5, 6, 7, 9, 24, 127, 129, 192, 200, 253, 254];
