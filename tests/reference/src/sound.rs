//! Is a pool sound for a book (refusal 13)? One function for each clause of 01 "The pool"; a
//! pool is sound if all hold.
//!
//! A clause looks at its own matter alone: where another clause is broken it does not complain,
//! so that a pool can break any single one.

use crate::book::{head, Book};
use crate::limits::{Limits, HEADER, NUMBERS};
use crate::pool::{View, MARK};
use crate::sheet::{arguments, arity, Elements, Sheet};

/// A clause about the pool as a whole.
pub type PoolClause = fn(&View, &Book) -> bool;
/// A clause about one sheet, given with its bytes.
pub type SheetClause = fn(&Lone, &Book) -> bool;

/// A sheet by itself: its bytes and what they say, counts cut to the limits.
pub struct Lone<'a> {
    pub bytes: &'a [u8],
    pub sheet: &'a Sheet,
    pub limits: &'a Limits,
}

pub const POOL_CLAUSES: [(&str, PoolClause); 15] = [
    ("mark", mark),
    ("version", version),
    ("scheduler", scheduler),
    ("strategy", strategy),
    ("next-number", next_number),
    ("header-spare", header_spare),
    ("list-counts", list_counts),
    ("list-tails", list_tails),
    ("list-slots-exist", list_slots_exist),
    ("list-slots-once", list_slots_once),
    ("free-slots-zero", free_slots_zero),
    ("numbers-differ", numbers_differ),
    ("numbers-below-next", numbers_below_next),
    ("place-linear", place_linear),
    ("place-fair", place_fair),
];

pub const SHEET_CLAUSES: [(&str, SheetClause); 21] = [
    ("created-count", created_count),
    ("key-count", key_count),
    ("fact-count", fact_count),
    ("sheet-spare", sheet_spare),
    ("keys-rise", keys_rise),
    ("key-symbols", key_symbols),
    ("key-arities", key_arities),
    ("key-arguments-yielded", key_arguments_yielded),
    ("key-padding", key_padding),
    ("values-created", values_created),
    ("key-tail", key_tail),
    ("facts-rise", facts_rise),
    ("fact-symbols", fact_symbols),
    ("fact-arities", fact_arities),
    ("fact-arguments-yielded", fact_arguments_yielded),
    ("fact-padding", fact_padding),
    ("fact-edges", fact_edges),
    ("fact-tail", fact_tail),
    ("depths", depths),
    ("depths-of-merged", depths_of_merged),
    ("depth-tail", depth_tail),
];

/// Is the pool sound for the book?
pub fn sound(pool: &View, book: &Book, scratch: &mut Sheet) -> bool {
    POOL_CLAUSES.iter().all(|(_, clause)| clause(pool, book))
        && pool.named().all(|slot| {
            let bytes = pool.sheet(slot as usize);
            scratch.load(bytes, pool.limits);
            let lone = Lone { bytes, sheet: scratch, limits: pool.limits };
            SHEET_CLAUSES.iter().all(|(_, clause)| clause(&lone, book))
        })
}

/// The names of the clauses that the pool breaks.
pub fn broken(pool: &View, book: &Book) -> Vec<&'static str> {
    let mut names: Vec<&'static str> = Vec::new();
    names
        .extend(POOL_CLAUSES.iter().filter(|(_, holds)| !holds(pool, book)).map(|(name, _)| *name));
    let mut sheet = Sheet::new();
    for (name, holds) in SHEET_CLAUSES {
        let breaks = pool.named().filter(|&s| (s as usize) < pool.slots()).any(|slot| {
            let bytes = pool.sheet(slot as usize);
            sheet.load(bytes, pool.limits);
            !holds(&Lone { bytes, sheet: &sheet, limits: pool.limits }, book)
        });
        if breaks {
            names.push(name);
        }
    }
    names
}

fn mark(pool: &View, _: &Book) -> bool {
    pool.bytes[..3] == MARK
}

fn version(pool: &View, _: &Book) -> bool {
    pool.bytes[3..5] == pool.limits.version.to_le_bytes()
}

fn scheduler(pool: &View, _: &Book) -> bool {
    pool.scheduler() <= 1
}

fn strategy(pool: &View, _: &Book) -> bool {
    pool.strategy() <= 1
}

fn next_number(pool: &View, _: &Book) -> bool {
    pool.next() <= NUMBERS
}

fn header_spare(pool: &View, _: &Book) -> bool {
    pool.bytes[7] == 0 && pool.bytes[15] == 0
}

fn list_counts(pool: &View, _: &Book) -> bool {
    pool.bytes[12..15].iter().all(|&count| count as usize <= crate::limits::SLOTS)
}

fn list_tails(pool: &View, _: &Book) -> bool {
    (0..3).all(|list| zero(pool.list_tail(list)))
}

fn list_slots_exist(pool: &View, _: &Book) -> bool {
    pool.named().all(|slot| (slot as usize) < pool.slots())
}

fn list_slots_once(pool: &View, _: &Book) -> bool {
    let mut seen = Elements::default();
    pool.named().all(|slot| {
        let new = !seen.has(slot);
        seen.add(slot);
        new
    })
}

fn free_slots_zero(pool: &View, _: &Book) -> bool {
    let used = pool.used();
    (0..pool.slots()).all(|slot| used >> slot & 1 == 1 || zero(pool.sheet(slot)))
}

/// The model numbers of the slots in use.
fn numbers<'a>(pool: &View<'a>) -> impl Iterator<Item = u16> + 'a {
    let (view, used) = (*pool, pool.used());
    (0..pool.slots())
        .filter(move |slot| used >> slot & 1 == 1)
        .map(move |slot| u16::from_le_bytes([view.sheet(slot)[0], view.sheet(slot)[1]]))
}

fn numbers_differ(pool: &View, _: &Book) -> bool {
    let mut seen = [0u16; 64];
    let mut count = 0;
    for number in numbers(pool) {
        if seen[..count].contains(&number) {
            return false;
        }
        seen[count] = number;
        count += 1;
    }
    true
}

fn numbers_below_next(pool: &View, _: &Book) -> bool {
    numbers(pool).all(|number| (number as u32) < pool.next())
}

/// The strategy places of the slots in use.
fn sheet_places<'a>(pool: &View<'a>) -> impl Iterator<Item = u16> + 'a {
    let (view, used) = (*pool, pool.used());
    (0..pool.slots())
        .filter(move |slot| used >> slot & 1 == 1)
        .map(move |slot| u16::from_le_bytes([view.sheet(slot)[2], view.sheet(slot)[3]]))
}

fn place_linear(pool: &View, _: &Book) -> bool {
    pool.strategy() != 0 || sheet_places(pool).all(|place| place == 0)
}

fn place_fair(pool: &View, book: &Book) -> bool {
    let sequents = book.sequents.len().max(1);
    pool.strategy() == 0 || sheet_places(pool).all(|place| (place as usize) < sequents)
}

fn zero(bytes: &[u8]) -> bool {
    bytes.iter().all(|&byte| byte == 0)
}

fn half(lone: &Lone, at: usize) -> usize {
    u16::from_le_bytes([lone.bytes[at], lone.bytes[at + 1]]) as usize
}

fn created_count(lone: &Lone, _: &Book) -> bool {
    half(lone, 4) <= lone.limits.elements
}

fn key_count(lone: &Lone, _: &Book) -> bool {
    half(lone, 6) <= lone.limits.keys
}

fn fact_count(lone: &Lone, _: &Book) -> bool {
    half(lone, 8) <= lone.limits.facts
}

fn sheet_spare(lone: &Lone, _: &Book) -> bool {
    zero(&lone.bytes[10..16])
}

fn rise(rows: &[u64], shift: u32) -> bool {
    rows.windows(2).all(|two| two[0] >> shift < two[1] >> shift)
}

fn keys_rise(lone: &Lone, _: &Book) -> bool {
    rise(lone.sheet.keys.rows(), 8)
}

fn kind(row: u64) -> u8 {
    (row >> 56) as u8
}

fn symbol(row: u64) -> u8 {
    (row >> 48) as u8
}

fn key_symbols(lone: &Lone, book: &Book) -> bool {
    lone.sheet.keys.rows().iter().all(|&row| book.key_arity(kind(row), symbol(row)).is_some())
}

fn key_arities(lone: &Lone, book: &Book) -> bool {
    lone.sheet.keys.rows().iter().all(|&row| {
        book.key_arity(kind(row), symbol(row))
            .is_none_or(|declared| declared as usize == arity(row))
    })
}

fn key_arguments_yielded(lone: &Lone, _: &Book) -> bool {
    let mut rows = lone.sheet.keys.rows().iter();
    rows.all(|&row| arguments(row).all(|element| lone.sheet.alive.has(element)))
}

/// The argument digits of `row` that its arity leaves unused.
fn unused(row: u64) -> u64 {
    let used = arity(row).min(4) as u32;
    let all = !head(0xff, 0xff, 0xff) & crate::book::KEY;
    row & all & !(0xffff_ffffu64 << 8 << (32 - 8 * used))
}

fn key_padding(lone: &Lone, _: &Book) -> bool {
    lone.sheet.keys.rows().iter().all(|&row| unused(row) == 0)
}

fn values_created(lone: &Lone, _: &Book) -> bool {
    let created = half(lone, 4);
    lone.sheet.keys.rows().iter().all(|&row| (row as u8 as usize) < created)
}

fn table_tail(lone: &Lone, first: usize, used: usize, room: usize) -> bool {
    zero(&lone.bytes[first + 8 * used..first + 8 * room])
}

fn key_tail(lone: &Lone, _: &Book) -> bool {
    table_tail(lone, 16, lone.sheet.keys.len(), lone.limits.keys)
}

fn facts_rise(lone: &Lone, _: &Book) -> bool {
    rise(lone.sheet.facts.rows(), 8)
}

fn fact_symbols(lone: &Lone, book: &Book) -> bool {
    lone.sheet.facts.rows().iter().all(|&row| book.fact_arity(symbol(row)).is_some())
}

fn fact_arities(lone: &Lone, book: &Book) -> bool {
    lone.sheet.facts.rows().iter().all(|&row| {
        book.fact_arity(symbol(row)).is_none_or(|declared| declared as usize == arity(row))
    })
}

fn fact_arguments_yielded(lone: &Lone, _: &Book) -> bool {
    let mut rows = lone.sheet.facts.rows().iter();
    rows.all(|&row| arguments(row).all(|element| lone.sheet.alive.has(element)))
}

fn fact_padding(lone: &Lone, _: &Book) -> bool {
    lone.sheet.facts.rows().iter().all(|&row| unused(row) == 0)
}

/// A fact's first and last byte are zero.
fn fact_edges(lone: &Lone, _: &Book) -> bool {
    lone.sheet.facts.rows().iter().all(|&row| kind(row) == 0 && row as u8 == 0)
}

fn fact_tail(lone: &Lone, _: &Book) -> bool {
    let first = 16 + 8 * lone.limits.keys;
    table_tail(lone, first, lone.sheet.facts.len(), lone.limits.facts)
}

/// Each living element's depth is the least over its keys.
fn depths(lone: &Lone, _: &Book) -> bool {
    let sheet = lone.sheet;
    let mut least = [u32::MAX; 256];
    for &row in sheet.keys.rows() {
        let value = row as u8 as usize;
        let known = arguments(row).all(|element| (element as usize) < sheet.created);
        if known {
            least[value] = least[value].min(sheet.depth_over(row));
        }
    }
    (0..sheet.created).all(|element| {
        !sheet.alive.has(element as u8) || least[element] == sheet.depths[element] as u32
    })
}

fn depths_of_merged(lone: &Lone, _: &Book) -> bool {
    let sheet = lone.sheet;
    (0..sheet.created).all(|element| sheet.alive.has(element as u8) || sheet.depths[element] == 0)
}

fn depth_tail(lone: &Lone, _: &Book) -> bool {
    let first = lone.limits.sheet() - lone.limits.elements;
    zero(&lone.bytes[first + lone.sheet.created..])
}

/// The bytes of a header, for those who damage one.
pub const HEADER_BYTES: usize = HEADER;
