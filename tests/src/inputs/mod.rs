//! What the calls are given: the documents' files, random ones and damaged ones.

pub mod damage;
pub mod known;
pub mod numbers;
pub mod pairs;
pub mod points;
pub mod requests;
pub mod sets;
pub mod tasks;
pub mod traces;
