//! Seeded books, faults in books, sound pools, and pools that are unsound in one clause; and the
//! counts of what was met while they were run.

pub mod counts;
pub mod damage;
pub mod draft;
pub mod faults;
pub mod pools;
pub mod rng;
pub mod shapes;
