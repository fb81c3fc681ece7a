//! One case, and the calls made of it.

use second_reading::editions::Edition;
use second_reading::entries::Terrain;
use second_reading::ground::Ground;
use second_reading::random::Random;
use second_reading::subwatershed::Division;

use crate::calls::{AllRooms, Ask, Comparison, Engine, Rooms};
use crate::grounds::Grid;

/// Everything that the grid entries take, for one outlet and one start.
#[derive(Clone)]
pub struct Case {
    /// Of tracings.
    pub edition: u32,
    pub rows: usize,
    pub cols: usize,
    pub codes: Vec<u8>,
    pub accumulation: Vec<u32>,
    pub outlets: Vec<u32>,
    pub place: usize,
    pub start: u32,
    /// Places of the written grid, accumulation or subaccumulation.
    pub grid_room: usize,
    /// Places of the four grids of flow lengths.
    pub length_rooms: [usize; 4],
    pub list_room: usize,
    pub work_room: usize,
    pub path_room: usize,
    /// Places of the list, the counts and the working space for all outlets at once.
    pub all_list_room: usize,
    pub counts_room: usize,
    pub all_work_room: usize,
}

impl Case {
    /// A case by either edition, with all rooms just as large as they must be,
    /// if the grid is free of rings and the list of outlets is sound.
    pub fn new(
        grid: &Grid,
        accumulation: &[u32],
        outlets: &[u32],
        place: usize,
        start: u32,
        random: &mut Random,
    ) -> Case {
        let edition = random.pick(&[1, 2]);
        let mut case = Case {
            edition,
            rows: grid.rows,
            cols: grid.cols,
            codes: grid.codes.clone(),
            accumulation: accumulation.to_vec(),
            outlets: outlets.to_vec(),
            place,
            start,
            grid_room: grid.cells(),
            length_rooms: [grid.cells(); 4],
            list_room: 1,
            work_room: 3 * grid.cells(),
            path_room: grid.cells(),
            all_list_room: 1,
            counts_room: outlets.len(),
            all_work_room: 3 * grid.cells(),
        };
        if grid.ground().has_ring() || outlets.is_empty() {
            return case;
        }
        let division = Division::new(grid.ground(), outlets);
        let starts = division.starts(Edition::numbered(edition).expect("one of the two"));
        let longest = division.longest_of_each(&starts, outlets);
        let subaccumulation = division.subaccumulation();
        let work = |outlet: u32| 3 * subaccumulation[outlet as usize] as usize;
        case.all_list_room = longest.iter().map(|longest| longest.starts.len()).sum();
        case.all_work_room = outlets.iter().map(|&outlet| work(outlet)).max().unwrap_or(0);
        if place < outlets.len() {
            let outlet = outlets[place];
            case.list_room = longest[place].starts.len();
            case.work_room = work(outlet);
            if division.belongs(start as usize, outlet as usize) {
                case.path_room = division.path(start as usize, outlet as usize).len();
            }
        }
        case
    }

    pub fn terrain(&self) -> Terrain<'_> {
        Terrain {
            rows: self.rows,
            cols: self.cols,
            codes: &self.codes,
            accumulation: &self.accumulation,
        }
    }

    fn ask(&self, dropping: u32) -> Ask<'_> {
        let Case { edition, place, .. } = *self;
        Ask { edition, terrain: self.terrain(), outlets: &self.outlets, place, dropping }
    }

    fn rooms(&self) -> Rooms {
        Rooms { grid: self.grid_room, list: self.list_room, work: self.work_room }
    }

    pub fn all_rooms(&self) -> AllRooms {
        AllRooms {
            grid: self.grid_room,
            list: self.all_list_room,
            counts: self.counts_room,
            work: self.all_work_room,
        }
    }

    /// Both engines, with and without dropping.
    fn trace(&self, comparison: &mut Comparison, rooms: Rooms, random: &mut Random) {
        let yes = random.pick(&[1, 1, 2, 256, 1 << 31, u32::MAX]);
        for engine in [Engine::Stack, Engine::Recursion] {
            for dropping in [0, yes] {
                comparison.trace(engine, self.ask(dropping), rooms);
            }
        }
    }

    fn draw(&self, comparison: &mut Comparison, start: u32, room: usize) -> (u32, Vec<u32>) {
        comparison.draw(self.terrain(), &self.outlets, self.place, start, room)
    }

    pub fn every_entry(&self, comparison: &mut Comparison, random: &mut Random) {
        comparison.accumulate(self.rows, self.cols, &self.codes, self.grid_room);
        comparison.check_accumulation(self.terrain());
        comparison.subaccumulate(self.terrain(), &self.outlets, self.grid_room);
        comparison.flow_lengths(self.terrain(), &self.outlets, self.length_rooms);
        self.trace(comparison, self.rooms(), random);
        comparison.trace_all(self.edition, self.terrain(), &self.outlets, self.all_rooms());
        self.draw(comparison, self.start, self.path_room);
    }

    pub fn any_cell(&self, random: &mut Random) -> usize {
        random.below(self.codes.len().max(1))
    }

    /// The first, the last or any place of a list, if it has places.
    pub fn any_place(count: usize, random: &mut Random) -> Option<usize> {
        let any = random.below(count.max(1));
        let place = random.pick(&[0, count.wrapping_sub(1), any, any]);
        (place < count).then_some(place)
    }
}

/// List and working space at, below and above what is needed.
pub fn around_needs(comparison: &mut Comparison, case: &Case, effort: usize, random: &mut Random) {
    let need = case.list_room;
    let mut lists = vec![0, 1, need - 1, need / 2, need + 1, need + 7];
    lists.sort();
    lists.dedup();
    random.shuffle(&mut lists);
    for list in lists.into_iter().filter(|&list| list != need).take(effort) {
        case.trace(comparison, Rooms { list, ..case.rooms() }, random);
    }
    let need = case.work_room;
    let mut works = vec![0, 1, need - 1, need / 3, need / 3 * 2, need + 1, need + 30];
    random.shuffle(&mut works);
    for work in works.into_iter().take(effort) {
        let list = random.pick(&[case.list_room, case.list_room - 1]);
        for dropping in [0, 1] {
            let rooms = Rooms { work, list, ..case.rooms() };
            comparison.trace(Engine::Stack, case.ask(dropping), rooms);
        }
    }
}

/// Drawing from sound and odd starts, with places at, below and above what is
/// needed.
pub fn drawings(comparison: &mut Comparison, case: &Case, effort: usize, random: &mut Random) {
    let cells = case.codes.len() as u32;
    let outlet = case.outlets[case.place];
    let ground = Ground::new(case.rows, case.cols, &case.codes);
    let mut starts: Vec<u32> = if cells <= 16 {
        (0..cells + 2).collect()
    } else {
        (0..4 * effort).map(|_| random.below(cells as usize) as u32).collect()
    };
    starts.extend([cells, u32::MAX, outlet | 1 << 31, random.pick(&case.outlets)]);
    starts.extend((0..cells).find(|&cell| ground.is_pond(cell as usize)));
    starts.extend(ground.below(outlet as usize).map(|cell| cell as u32));
    starts.extend(ground.inflows(outlet as usize).map(|(_, cell)| cell as u32));
    for start in starts {
        let (number, path) = case.draw(comparison, start, case.codes.len() + 1);
        if number == 0 {
            let need = path.len();
            let room = random.pick(&[0, need - 1, need, need + 1]);
            case.draw(comparison, start, room);
        }
    }
}
