//! Random scripts to compare two consoles with, and a count of what they do.
//!
//! This is no part of the paper. A script is decided by its seed alone. Most
//! commands of most scripts are done; faults, refusals and malformed lines are
//! the seasoning.

mod clips;
mod data;
mod dice;
mod judges;
mod lists;
mod paint;
mod peeks;
mod scripts;
mod seasoning;
pub mod stats;
mod stops;
mod traps;

pub use scripts::script;
