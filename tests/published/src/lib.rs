//! The published Rust as it is, and a machine that steps it on a book.
//!
//! `chase` (and `syntax::symbol`, `syntax::term`, `syntax::formula::clause`) are the published
//! text, taken in at build time with `appended/` behind it. `shim`, `trace`, `syntax` otherwise
//! and `transform` stand in for what it leans on. `read` makes sequents of a book and `machine`
//! steps them.

#![allow(dead_code, unused_imports, unused_variables)]

extern crate self as either;
extern crate self as itertools;
extern crate self as rand;
extern crate self as razor_fol;
extern crate self as tracing;

#[macro_use]
pub mod shim;
pub use shim::either::Either;
pub use shim::itertools::Itertools;
pub use shim::rand::random;

pub mod machine;
pub mod peer;
pub mod read;
pub mod show;
pub mod syntax;
pub mod trace;
pub mod transform;

include!(concat!(env!("OUT_DIR"), "/root.rs"));

/// The published files with a short print of each (FNV-1a, 64 bits).
pub const PRINTS: [(&str, u64); 9] = include!(concat!(env!("OUT_DIR"), "/prints.rs"));
