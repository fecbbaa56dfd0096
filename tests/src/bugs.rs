//! Switches that make the reference a wrong program. A rule asks for one by `bug`, or has another value
//! with it by `but`. All are off, but for the answers of a wrong program that stands in for the library.

use std::cell::Cell;

thread_local! {
    static ON: Cell<&'static str> = const { Cell::new("") };
}

/// Whether this switch is on.
#[inline(always)]
pub fn bug(name: &str) -> bool {
    ON.get() == name
}

pub trait But: Sized {
    /// The value, or the wrong one where this switch is on.
    #[inline(always)]
    fn but(self, name: &str, wrong: Self) -> Self {
        if bug(name) {
            wrong
        } else {
            self
        }
    }
}

impl<T> But for T {}

/// What is computed with a switch on.
pub fn with<T>(name: &'static str, work: impl FnOnce() -> T) -> T {
    ON.set(name);
    let value = work();
    ON.set("");
    value
}

/// The sources that ask for switches.
const ASKING: &[&str] = &[
    include_str!("reference/calls.rs"),
    include_str!("reference/charges.rs"),
    include_str!("reference/choice.rs"),
    include_str!("reference/deadlines.rs"),
    include_str!("reference/files.rs"),
    include_str!("reference/joining.rs"),
    include_str!("reference/lines.rs"),
    include_str!("reference/listing.rs"),
    include_str!("reference/plans.rs"),
    include_str!("reference/regions.rs"),
    include_str!("reference/seeds.rs"),
    include_str!("reference/traces.rs"),
    include_str!("stand_in.rs"),
];

/// The names of all switches, in the order in which the sources ask for them.
pub fn all() -> Vec<&'static str> {
    let mut names = Vec::new();
    for source in ASKING {
        for (at, _) in source.match_indices("bu") {
            let rest = &source[at + 2..];
            let Some(rest) = rest.strip_prefix("g(").or(rest.strip_prefix("t(")) else {
                continue;
            };
            let Some(rest) = rest.trim_start().strip_prefix('"') else {
                continue;
            };
            let name = rest.split('"').next().unwrap();
            if !names.contains(&name) {
                names.push(name);
            }
        }
    }
    names
}
