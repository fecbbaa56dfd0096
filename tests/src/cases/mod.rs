//! One random case: a file from a seed, every call on one file, files joined, a file from a trace, and a task set.

pub mod deadlines;
mod files;
mod made;
mod shapes;
mod traced;

use crate::counts::Counts;
use crate::driver::Driver;
use crate::rng::Rng;

/// What is compared with what, and where it is counted.
struct Trial<'a> {
    driver: &'a mut Driver,
    counts: &'a mut Counts,
    rng: Rng,
    case: u64,
}

pub fn run(driver: &mut Driver, counts: &mut Counts, seed: u64, case: u64) -> Result<(), String> {
    let mut trial = Trial {
        driver,
        counts,
        rng: Rng::new(seed, case),
        case,
    };
    trial.generated()?;
    trial.file()?;
    trial.joined()?;
    trial.traced()?;
    trial.deadlines()
}
