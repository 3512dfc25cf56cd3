//! Sheets and pools made by hand, sound for a book: written here byte by byte from
//! docs/FORMAT.md, apart from how the reference writes them.

use crate::rng::Rng;
use reference::book::{argument, head, Book, KEY};
use reference::limits::{Limits, HEADER, SLOTS};
use reference::plain::{PlainPool, PlainSheet};
use reference::sheet::arguments;
use std::collections::{BTreeMap, BTreeSet};

/// Each living element with its least depth; none if the keys only lead in circles.
pub fn depths(keys: &[u64]) -> Option<Vec<(u8, u32)>> {
    let mut known: BTreeMap<u8, u32> = BTreeMap::new();
    for level in 0..=keys.len() as u32 {
        for &key in keys {
            let over: Option<Vec<u32>> = arguments(key).map(|e| known.get(&e).copied()).collect();
            let Some(over) = over else { continue };
            let depth = over.into_iter().map(|d| d + 1).max().unwrap_or(0);
            if depth == level {
                known.entry(key as u8).or_insert(depth);
            }
        }
    }
    let living: BTreeSet<u8> = keys.iter().map(|&key| key as u8).collect();
    living.into_iter().map(|e| known.get(&e).map(|&depth| (e, depth))).collect()
}

/// A random key of a declared symbol over `living`, without value.
fn random_key(rng: &mut Rng, book: &Book, living: &[u8]) -> Option<u64> {
    let kind = rng.range(1, 4) as u8;
    let counts = [
        book.constants as usize,
        book.functions.len(),
        book.constant_witnesses as usize,
        book.witnesses.len(),
    ];
    let count = counts[kind as usize - 1];
    if count == 0 {
        return None;
    }
    let symbol = rng.below(count) as u8;
    let arity = book.key_arity(kind, symbol)?;
    over(rng, head(kind, symbol, arity), arity, living)
}

fn over(rng: &mut Rng, entry: u64, arity: u8, living: &[u8]) -> Option<u64> {
    if arity > 0 && living.is_empty() {
        return None;
    }
    Some((0..arity as usize).fold(entry, |entry, i| entry | argument(i, rng.pick(living))))
}

/// A random sheet of at most `most` living elements, sound for the book.
pub fn sheet(rng: &mut Rng, book: &Book, most: usize) -> PlainSheet {
    let spare = rng.below(4);
    let mut numbers: Vec<u8> = (0..(most + spare) as u8).collect();
    for i in (1..numbers.len()).rev() {
        numbers.swap(i, rng.below(i + 1));
    }
    let mut living: Vec<u8> = Vec::new();
    let mut keys: BTreeMap<u64, u8> = BTreeMap::new();
    for _ in 0..4 * most {
        let Some(key) = random_key(rng, book, &living) else { continue };
        if keys.contains_key(&key) {
            continue;
        }
        let old = living.len() == most || (!living.is_empty() && rng.odds(2, 5));
        let value = if old { rng.pick(&living) } else { numbers[living.len()] };
        if !old {
            living.push(value);
        }
        keys.insert(key, value);
    }
    let mut facts = BTreeSet::new();
    for _ in 0..rng.below(6) {
        let relation = rng.below(book.relations.len().max(1)) as u8;
        let Some(arity) = book.fact_arity(relation) else { continue };
        facts.extend(over(rng, head(0, relation, arity), arity, &living));
    }
    let keys: Vec<u64> = keys.into_iter().map(|(key, value)| (key & KEY) | value as u64).collect();
    let highest = living.iter().max().map_or(0, |&e| e as usize + 1);
    PlainSheet {
        number: 0,
        place: 0,
        created: highest + rng.below(3),
        depths: depths(&keys).expect("every key is over elements that had a name"),
        keys,
        facts: facts.into_iter().collect(),
    }
}

/// A sheet's bytes.
pub fn sheet_bytes(sheet: &PlainSheet, limits: &Limits) -> Vec<u8> {
    let mut bytes = Vec::with_capacity(limits.sheet());
    let counts = [sheet.created, sheet.keys.len(), sheet.facts.len()];
    for number in [sheet.number as usize, sheet.place].into_iter().chain(counts) {
        bytes.extend_from_slice(&(number as u16).to_le_bytes());
    }
    bytes.resize(16, 0);
    for (rows, room) in [(&sheet.keys, limits.keys), (&sheet.facts, limits.facts)] {
        let end = bytes.len() + 8 * room;
        rows.iter().for_each(|row| bytes.extend_from_slice(&row.to_be_bytes()));
        bytes.resize(end, 0);
    }
    let first = bytes.len();
    bytes.resize(limits.sheet(), 0);
    for &(element, depth) in &sheet.depths {
        bytes[first + element as usize] = depth as u8;
    }
    bytes
}

/// What a pool's header says beside its lists.
#[derive(Clone, Copy, Debug)]
pub struct Header {
    pub scheduler: u8,
    pub strategy: u8,
    pub next: u32,
}

/// A pool's bytes: the sheets of each list, in slots from 0 on in list order.
pub fn pool_bytes(pool: &PlainPool, header: Header, slots: usize, limits: &Limits) -> Vec<u8> {
    let mut bytes = b"MDL".to_vec();
    bytes.extend_from_slice(&limits.version.to_le_bytes());
    bytes.extend_from_slice(&[header.scheduler, header.strategy, 0]);
    bytes.extend_from_slice(&header.next.to_le_bytes());
    bytes.extend(pool.lists.iter().map(|list| list.len() as u8));
    bytes.push(0);
    let mut slot = 0;
    for (i, list) in pool.lists.iter().enumerate() {
        bytes.extend((slot..slot + list.len()).map(|slot| slot as u8));
        slot += list.len();
        bytes.resize(16 + SLOTS * (i + 1), 0);
    }
    assert_eq!(bytes.len(), HEADER);
    for sheet in pool.lists.iter().flatten() {
        bytes.extend_from_slice(&sheet_bytes(sheet, limits));
    }
    bytes.resize(limits.pool(slots), 0);
    bytes
}

/// A random pool by hand, sound for the book, with at least one waiting sheet; `most` bounds the
/// living elements of a sheet and `sheets` the sheets of a list.
pub fn pool(
    rng: &mut Rng,
    book: &Book,
    most: usize,
    sheets: usize,
    limits: &Limits,
) -> (PlainPool, Header, Vec<u8>) {
    let strategy = rng.below(2) as u8;
    let places = if strategy == 1 { book.sequents.len().max(1) } else { 1 };
    let counts = [rng.range(1, sheets), rng.below(sheets + 1), rng.below(sheets + 1)];
    let mut number = rng.below(50) as u64;
    let lists = counts.map(|count| {
        let made = (0..count).map(|_| {
            let size = rng.range(1, most);
            let mut sheet = sheet(rng, book, size);
            sheet.number = number;
            number += rng.range(1, 9) as u64;
            sheet.place = rng.below(places);
            sheet
        });
        made.collect::<Vec<PlainSheet>>()
    });
    let header = Header { scheduler: rng.below(2) as u8, strategy, next: number as u32 };
    let slots = counts.iter().sum::<usize>() + rng.below(10);
    let pool = PlainPool { lists };
    let bytes = pool_bytes(&pool, header, slots.clamp(1, SLOTS), limits);
    (pool, header, bytes)
}
