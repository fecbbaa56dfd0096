//! The files that are timed, the work of the planner's calls written for speed in plain Rust, and medians.

pub mod by_line;
pub mod charges;
pub mod checks;
pub mod counts;
pub mod deadlines;
pub mod fast;
pub mod files;
pub mod generate;
pub mod join;
pub mod regions;
pub mod replays;
pub mod searches;
pub mod text;
pub mod timing;
pub mod trace;
