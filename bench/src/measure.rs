//! Time and stack of a call, and memory of this process.

use std::ffi::c_void;
use std::time::Instant;

mod c {
    use std::ffi::c_void;

    extern "C" {
        pub fn cpu_seconds() -> f64;
        pub fn watch(page: *mut c_void);
        pub fn touched_at() -> f64;
        pub fn peak_kib() -> usize;
        pub fn stack_reached(
            call: extern "C" fn(*mut c_void),
            data: *mut c_void,
            bytes: usize,
        ) -> usize;
    }
}

/// A sample lasts at least so many seconds: short calls are made several times.
const SAMPLE: f64 = 0.003;

/// What one call took, in seconds.
#[derive(Clone, Copy)]
pub struct Taken {
    pub cpu: f64,
    pub wall: f64,
    /// The CPU time from the first touch of a watched page on; 0 if none was watched.
    pub part: f64,
}

/// Bytes of a page.
pub const PAGE: usize = 4096;

/// The CPU time of a call, and that from its first touch of a page on.
pub fn watching(page: *mut u32, call: impl FnOnce()) -> Taken {
    assert_eq!(page.align_offset(PAGE), 0);
    // SAFETY: the page is given free again at its first touch, at the latest below.
    unsafe { c::watch(page.cast()) };
    let taken = timed(call);
    let end = unsafe { c::cpu_seconds() };
    let touched = unsafe { c::touched_at() };
    assert!(touched > 0.0, "the page is touched");
    Taken { part: end - touched, ..taken }
}

pub fn timed(call: impl FnOnce()) -> Taken {
    let (cpu, wall) = (unsafe { c::cpu_seconds() }, Instant::now());
    call();
    let wall = wall.elapsed().as_secs_f64();
    let cpu = unsafe { c::cpu_seconds() } - cpu;
    Taken { cpu, wall, part: 0.0 }
}

/// The best of several samples, for each call.
#[derive(Clone, Copy)]
pub struct Best {
    pub taken: Taken,
    /// The CPU time by which the second best is worse; none for a single sample.
    pub spread: Option<f64>,
}

/// One of several that do the same work.
pub struct Contestant<'a> {
    runs: usize,
    call: Box<dyn FnMut(u32) -> Taken + 'a>,
    repeats: Option<u32>,
    samples: Vec<Taken>,
}

impl<'a> Contestant<'a> {
    /// One whose call is timed.
    pub fn new(runs: usize, mut call: impl FnMut() + 'a) -> Self {
        Contestant::timing(runs, move |repeats| timed(|| (0..repeats).for_each(|_| call())))
    }

    /// One whose call times itself.
    pub fn timing_itself(runs: usize, mut call: impl FnMut() -> Taken + 'a) -> Self {
        Contestant::timing(runs, move |repeats| {
            let all = (0..repeats).map(|_| call());
            all.reduce(|sum, taken| Taken {
                cpu: sum.cpu + taken.cpu,
                wall: sum.wall + taken.wall,
                part: sum.part + taken.part,
            })
            .expect("a call")
        })
    }

    fn timing(runs: usize, call: impl FnMut(u32) -> Taken + 'a) -> Self {
        Contestant { runs, call: Box::new(call), repeats: None, samples: Vec::new() }
    }

    fn sample(&mut self, repeats: u32) -> Taken {
        let Taken { cpu, wall, part } = (self.call)(repeats);
        let count = f64::from(repeats);
        Taken { cpu: cpu / count, wall: wall / count, part: part / count }
    }

    /// The first call tells how many make a sample.
    fn run(&mut self) {
        let repeats = match self.repeats {
            Some(repeats) => repeats,
            None => {
                let first = self.sample(1);
                let repeats = (SAMPLE / first.cpu.max(1e-8)).ceil() as u32;
                self.repeats = Some(repeats);
                if repeats == 1 {
                    self.samples.push(first);
                    return;
                }
                repeats
            }
        };
        let sample = self.sample(repeats);
        self.samples.push(sample);
    }

    fn best(&self) -> Option<Best> {
        let best = |of: fn(&Taken) -> f64| {
            let mut times: Vec<f64> = self.samples.iter().map(of).collect();
            times.sort_by(f64::total_cmp);
            times
        };
        let cpu = best(|taken| taken.cpu);
        let spread = cpu.get(1).map(|second| second - cpu[0]);
        let cpu = *cpu.first()?;
        let (wall, part) = (best(|taken| taken.wall)[0], best(|taken| taken.part)[0]);
        Some(Best { taken: Taken { cpu, wall, part }, spread })
    }
}

/// All best times so far.
#[derive(Default)]
pub struct Clock {
    pub bests: Vec<Best>,
}

impl Clock {
    /// Lets all run in turn, round by round, each time another one first. One without runs has no
    /// time.
    pub fn race(&mut self, mut contestants: Vec<Contestant>) -> Vec<Option<Best>> {
        let rounds = contestants.iter().map(|contestant| contestant.runs).max().unwrap_or(0);
        for round in 0..rounds {
            let first = round % contestants.len();
            let (later, earlier) = contestants.split_at_mut(first);
            let turns = earlier.iter_mut().chain(later);
            turns.filter(|contestant| round < contestant.runs).for_each(Contestant::run);
        }
        let bests: Vec<Option<Best>> = contestants.iter().map(Contestant::best).collect();
        self.bests.extend(bests.iter().flatten());
        bests
    }
}

/// The most memory that this process has had in use, in bytes.
pub fn peak() -> usize {
    unsafe { c::peak_kib() * 1024 }
}

const PAINTED: usize = 64 << 20;

/// The bytes of stack that a call takes, on a painted stack of its own.
pub fn stack(mut call: impl FnMut()) -> usize {
    reached(&mut call) - reached(&mut || ())
}

fn reached(mut call: &mut dyn FnMut()) -> usize {
    extern "C" fn run(data: *mut c_void) {
        // SAFETY: data is the reference below, which outlives the thread.
        let call = unsafe { &mut *data.cast::<&mut dyn FnMut()>() };
        call();
    }
    let data: *mut &mut dyn FnMut() = &mut call;
    unsafe { c::stack_reached(run, data.cast(), PAINTED) }
}
