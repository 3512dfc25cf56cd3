//! The reference's calls, exported under names of their own, so that one program can hold them and the
//! exported calls (tests/calls/speed). Compiled by rustc alone, for the machine that the archive is for.

use std::slice::{from_raw_parts, from_raw_parts_mut};

#[repr(C)]
pub struct Ran {
    pub stop: u32,
    pub steps: u32,
}

/// # Safety
/// As `chase_open`: both pointers are valid for their lengths, and apart from each other.
#[no_mangle]
pub unsafe extern "C" fn reference_open(
    book: *const u8,
    book_len: usize,
    pool: *mut u8,
    pool_len: usize,
    scheduler: u32,
    strategy: u32,
) -> u32 {
    let (book, pool) = (from_raw_parts(book, book_len), from_raw_parts_mut(pool, pool_len));
    reference::chase_open(book, pool, scheduler, strategy)
}

/// # Safety
/// As `chase_step`: both pointers are valid for their lengths, and apart from each other.
#[no_mangle]
pub unsafe extern "C" fn reference_step(
    book: *const u8,
    book_len: usize,
    pool: *mut u8,
    pool_len: usize,
    bound: u32,
    number: u32,
) -> u32 {
    let (book, pool) = (from_raw_parts(book, book_len), from_raw_parts_mut(pool, pool_len));
    reference::chase_step(book, pool, bound, number)
}

/// # Safety
/// As `chase_run`: both pointers are valid for their lengths, and apart from each other.
#[no_mangle]
pub unsafe extern "C" fn reference_run(
    book: *const u8,
    book_len: usize,
    pool: *mut u8,
    pool_len: usize,
    bound: u32,
    number: u32,
    budget: u32,
) -> Ran {
    let (book, pool) = (from_raw_parts(book, book_len), from_raw_parts_mut(pool, pool_len));
    let (stop, steps) = reference::chase_run(book, pool, bound, number, budget);
    Ran { stop, steps }
}
