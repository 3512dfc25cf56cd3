//! A plain reference of the chase: the check of a book, the pool's image and soundness, and the
//! calls open, step, run and take, byte for byte.
//!
//! Written from the requirements document ("01" below) and from docs/FORMAT.md, with flat tables
//! of packed numbers. It judges refusals, limits and pool bytes, and is the peer in comparisons
//! of speed. Events for the generator's counts are told to a `Watch`, which the plain calls leave
//! empty, so that it costs them nothing.

pub mod book;
pub mod calls;
pub mod check;
pub mod child;
pub mod evaluate;
pub mod limits;
pub mod listing;
pub mod look;
pub mod plain;
pub mod pool;
pub mod sheet;
pub mod sound;
pub mod step;
pub mod watch;

pub use book::Book;
pub use calls::{chase_open, chase_run, chase_step, chase_take};
pub use check::{Fault, Wanted};
pub use limits::{Limits, VERSION_1, VERSION_2};
