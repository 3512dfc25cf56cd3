//! The four calls on numbers and byte slices, with every refusal in its order
//! (01 "Refusal numbers").

use crate::book::Book;
use crate::check::check;
use crate::child::Bound;
use crate::limits::{Limits, VERSION_1};
use crate::pool::{self, View, BOUNDED, COMPLETE};
use crate::sheet::Sheet;
use crate::sound::sound;
use crate::step::{free_first, Engine};
use crate::watch::{Silent, Watch};

/// Replaces the whole pool with one waiting, empty model 0.
pub fn chase_open(book: &[u8], pool: &mut [u8], scheduler: u32, strategy: u32) -> u32 {
    open_with(&VERSION_1, book, pool, scheduler, strategy)
}

/// Makes one step.
pub fn chase_step(book: &[u8], pool: &mut [u8], bound: u32, number: u32) -> u32 {
    step_with(&VERSION_1, book, pool, Bound { kind: bound, number }, &mut Silent)
}

/// Makes up to `budget` steps; answers the stop (or refusal) and the steps made.
pub fn chase_run(book: &[u8], pool: &mut [u8], bound: u32, number: u32, budget: u32) -> (u32, u32) {
    run_with(&VERSION_1, book, pool, Bound { kind: bound, number }, budget, &mut Silent)
}

/// Copies the first sheet of a list out and frees its slot.
pub fn chase_take(book: &[u8], pool: &mut [u8], list: u32, out: &mut [u8]) -> u32 {
    take_with(&VERSION_1, book, pool, list, out)
}

pub fn open_with(
    limits: &Limits,
    book: &[u8],
    pool: &mut [u8],
    scheduler: u32,
    strategy: u32,
) -> u32 {
    if let Err(fault) = check(book) {
        return fault.number;
    }
    if limits.slots(pool.len()).is_none() {
        return 11;
    }
    if scheduler > 1 || strategy > 1 {
        return 12;
    }
    pool::write_open(pool, limits, scheduler as u8, strategy as u8);
    0
}

/// Refusals 1 to 13 of a call on a pool; `known` says whether its settings are.
fn enter(limits: &Limits, book: &[u8], pool: &[u8], known: bool) -> Result<Book, u32> {
    let book = check(book).map_err(|fault| fault.number)?;
    if limits.slots(pool.len()).is_none() {
        return Err(11);
    }
    if !known {
        return Err(12);
    }
    if !sound(&View { bytes: pool, limits }, &book, &mut Sheet::new()) {
        return Err(13);
    }
    Ok(book)
}

pub fn step_with<W: Watch>(
    limits: &Limits,
    book: &[u8],
    pool: &mut [u8],
    bound: Bound,
    watch: &mut W,
) -> u32 {
    match enter(limits, book, pool, bound.known()) {
        Err(refusal) => refusal,
        Ok(book) => Engine::new().step(&book, pool, limits, bound, watch),
    }
}

pub fn run_with<W: Watch>(
    limits: &Limits,
    book: &[u8],
    pool: &mut [u8],
    bound: Bound,
    budget: u32,
    watch: &mut W,
) -> (u32, u32) {
    let book = match enter(limits, book, pool, bound.known()) {
        Err(refusal) => return (refusal, 0),
        Ok(book) => book,
    };
    let mut engine = Engine::new();
    for steps in 0..budget {
        let stop = engine.step(&book, pool, limits, bound, watch);
        if stop != 0 {
            return (stop, steps);
        }
    }
    (0, budget)
}

pub fn take_with(limits: &Limits, book: &[u8], pool: &mut [u8], list: u32, out: &mut [u8]) -> u32 {
    if let Err(refusal) = enter(limits, book, pool, list <= 1) {
        return refusal;
    }
    let list = if list == 0 { COMPLETE } else { BOUNDED };
    let view = View { bytes: pool, limits };
    let Some(&slot) = view.list(list).first() else { return 18 };
    if out.len() < limits.sheet() {
        return 19;
    }
    out[..limits.sheet()].copy_from_slice(view.sheet(slot as usize));
    free_first(pool, limits, list);
    0
}
