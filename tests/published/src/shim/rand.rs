//! Stands in for the crate `rand`: "random" numbers are 0, 1, 2, .. on each thread, so a model's
//! id tells the order in which models were made.

use std::cell::Cell;

thread_local! {
    static NEXT: Cell<u64> = const { Cell::new(0) };
}

pub fn random() -> u64 {
    NEXT.with(|next| next.replace(next.get() + 1))
}

/// The next number that `random` gives.
pub fn set_next(number: u64) {
    NEXT.with(|next| next.set(number));
}

/// What `random` would give next.
pub fn next() -> u64 {
    NEXT.with(|next| next.get())
}
