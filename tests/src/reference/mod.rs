//! The planner once more, as plainly as documents 01 and 02 say it. Each rule stands once; `but` and
//! `bug` name the wrong programs that break it.

pub mod bytes;
pub mod calls;
pub mod charges;
pub mod choice;
pub mod deadlines;
pub mod files;
pub mod joining;
pub mod lines;
pub mod listing;
pub mod plans;
pub mod regions;
pub mod seeds;
pub mod traces;

pub use ::calls::Refusal;

fn refuse(number: u32, place: usize) -> Option<Refusal> {
    Some(Refusal { number, place })
}
