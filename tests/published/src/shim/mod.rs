//! What the published files lean on and is not among them: only as much as they use.
//!
//! The crate calls itself by the names of the crates that the published text imports
//! (`extern crate self as ..` in lib.rs), so each of these modules stands in for one crate.

pub mod either;
pub mod itertools;
pub mod rand;
#[macro_use]
pub mod tracing;
