//! The figures of a row, from the times of its contestants.

use crate::measure::Best;

/// The time of the library and of the others, in seconds.
pub struct Figure {
    pub library: f64,
    pub wall: Option<f64>,
    /// Whether a time got by taking one from another stands out from the noise.
    pub sure: bool,
    pub plain: f64,
    pub rust: Option<f64>,
    /// How many units the cost is shared by.
    pub units: f64,
}

pub fn time(best: Option<Best>) -> f64 {
    best.expect("a time").taken.cpu
}

pub fn whole(library: Option<Best>, plain: f64, rust: Option<Best>, units: usize) -> Figure {
    let taken = library.expect("a time").taken;
    Figure {
        library: taken.cpu,
        wall: Some(taken.wall),
        sure: true,
        plain,
        rust: rust.map(|best| best.taken.cpu),
        units: units as f64,
    }
}

/// What a call takes from the first touch of its working space on.
pub fn touching(library: Option<Best>, plain: f64, units: usize) -> Figure {
    let library = library.expect("a time").taken.part;
    Figure { library, wall: None, sure: true, plain, rust: None, units: units as f64 }
}

/// What a whole call takes more than one refused after its checks.
pub fn apart(whole: Option<Best>, refused: Option<Best>, plain: f64, units: usize) -> Figure {
    let (whole, refused) = (whole.expect("a time"), refused.expect("a time"));
    let library = whole.taken.cpu - refused.taken.cpu;
    let noise = whole.spread.unwrap_or(0.0) + refused.spread.unwrap_or(0.0);
    let sure = library > 4.0 * noise && library > 0.05 * whole.taken.cpu;
    Figure { library, wall: None, sure, plain, rust: None, units: units as f64 }
}
