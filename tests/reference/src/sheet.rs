//! A sheet in working form: two sorted tables of packed entries, depths and the living elements;
//! read from its bytes and written to them (docs/FORMAT.md "The sheet").

use crate::book::KEY;
use crate::limits::{Limits, ELEMENTS, ROWS, SHEET_HEAD};

/// Packed entries in rising order.
#[derive(Clone)]
pub struct Table {
    rows: [u64; ROWS],
    len: usize,
}

impl Table {
    pub fn new() -> Self {
        Table { rows: [0; ROWS], len: 0 }
    }

    pub fn rows(&self) -> &[u64] {
        &self.rows[..self.len]
    }

    pub fn rows_mut(&mut self) -> &mut [u64] {
        &mut self.rows[..self.len]
    }

    pub fn copy_from(&mut self, other: &Table) {
        self.len = other.len;
        self.rows[..other.len].copy_from_slice(other.rows());
    }

    /// Where `entry` stands by its key part, or where it would be put.
    pub fn search(&self, entry: u64) -> Result<usize, usize> {
        let key = entry & KEY;
        self.rows().binary_search_by(|row| (row & KEY).cmp(&key))
    }

    pub fn insert(&mut self, at: usize, entry: u64) {
        self.rows.copy_within(at..self.len, at + 1);
        self.rows[at] = entry;
        self.len += 1;
    }

    pub fn push(&mut self, entry: u64) {
        self.rows[self.len] = entry;
        self.len += 1;
    }

    pub fn truncate(&mut self, len: usize) {
        self.len = len;
    }

    pub fn len(&self) -> usize {
        self.len
    }

    pub fn is_empty(&self) -> bool {
        self.len == 0
    }
}

impl Default for Table {
    fn default() -> Self {
        Self::new()
    }
}

/// A set of elements, as bits.
#[derive(Clone, Copy, Default, PartialEq, Eq)]
pub struct Elements([u64; ELEMENTS / 64]);

impl Elements {
    pub fn has(&self, element: u8) -> bool {
        self.0[element as usize / 64] >> (element % 64) & 1 == 1
    }

    pub fn add(&mut self, element: u8) {
        self.0[element as usize / 64] |= 1 << (element % 64);
    }

    pub fn drop(&mut self, element: u8) {
        self.0[element as usize / 64] &= !(1 << (element % 64));
    }
}

/// A sheet in working form.
#[derive(Clone)]
pub struct Sheet {
    pub number: u16,
    pub place: u16,
    pub created: usize,
    pub keys: Table,
    pub facts: Table,
    pub depths: [u8; ELEMENTS],
    /// The elements that some key yields.
    pub alive: Elements,
    pub living: usize,
}

fn half(bytes: &[u8], at: usize) -> u16 {
    u16::from_le_bytes([bytes[at], bytes[at + 1]])
}

fn entry(bytes: &[u8], at: usize) -> u64 {
    u64::from_be_bytes(bytes[at..at + 8].try_into().unwrap())
}

impl Sheet {
    pub fn new() -> Self {
        Sheet {
            number: 0,
            place: 0,
            created: 0,
            keys: Table::new(),
            facts: Table::new(),
            depths: [0; ELEMENTS],
            alive: Elements::default(),
            living: 0,
        }
    }

    /// Makes `self` what `other` is; only rows in use are copied.
    pub fn copy_from(&mut self, other: &Sheet) {
        self.number = other.number;
        self.place = other.place;
        self.created = other.created;
        self.keys.copy_from(&other.keys);
        self.facts.copy_from(&other.facts);
        self.depths[..other.created].copy_from_slice(&other.depths[..other.created]);
        self.alive = other.alive;
        self.living = other.living;
    }

    /// Reads a sheet's bytes; counts over the limits are cut to them.
    pub fn load(&mut self, bytes: &[u8], limits: &Limits) {
        self.number = half(bytes, 0);
        self.place = half(bytes, 2);
        self.created = (half(bytes, 4) as usize).min(limits.elements);
        let keys = (half(bytes, 6) as usize).min(limits.keys);
        let facts = (half(bytes, 8) as usize).min(limits.facts);
        let facts_at = SHEET_HEAD + 8 * limits.keys;
        let depths_at = facts_at + 8 * limits.facts;
        self.keys.truncate(0);
        for row in 0..keys {
            self.keys.push(entry(bytes, SHEET_HEAD + 8 * row));
        }
        self.facts.truncate(0);
        for row in 0..facts {
            self.facts.push(entry(bytes, facts_at + 8 * row));
        }
        let depths = &bytes[depths_at..depths_at + self.created];
        self.depths[..self.created].copy_from_slice(depths);
        self.find_living();
    }

    /// Finds the elements that some key yields.
    pub fn find_living(&mut self) {
        self.alive = Elements::default();
        self.living = 0;
        for &row in self.keys.rows() {
            if !self.alive.has(row as u8) {
                self.alive.add(row as u8);
                self.living += 1;
            }
        }
    }

    /// Writes the sheet's image into `bytes`.
    pub fn store(&self, bytes: &mut [u8], limits: &Limits) {
        bytes.fill(0);
        let counts = [self.created, self.keys.len(), self.facts.len()];
        bytes[0..2].copy_from_slice(&self.number.to_le_bytes());
        bytes[2..4].copy_from_slice(&self.place.to_le_bytes());
        for (i, count) in counts.into_iter().enumerate() {
            bytes[4 + 2 * i..6 + 2 * i].copy_from_slice(&(count as u16).to_le_bytes());
        }
        let facts_at = SHEET_HEAD + 8 * limits.keys;
        let depths_at = facts_at + 8 * limits.facts;
        for (place, row) in bytes[SHEET_HEAD..facts_at].chunks_exact_mut(8).zip(self.keys.rows()) {
            place.copy_from_slice(&row.to_be_bytes());
        }
        for (place, row) in bytes[facts_at..depths_at].chunks_exact_mut(8).zip(self.facts.rows()) {
            place.copy_from_slice(&row.to_be_bytes());
        }
        bytes[depths_at..depths_at + self.created].copy_from_slice(&self.depths[..self.created]);
    }

    /// The element that the key `key` yields.
    pub fn find(&self, key: u64) -> Option<u8> {
        self.keys.search(key).ok().map(|at| self.keys.rows()[at] as u8)
    }

    /// The domain: values in order of first appearance over the keys.
    pub fn domain(&self, into: &mut Vec<u8>) {
        into.clear();
        let mut seen = Elements::default();
        for &row in self.keys.rows() {
            if !seen.has(row as u8) {
                seen.add(row as u8);
                into.push(row as u8);
            }
        }
    }
}

impl Default for Sheet {
    fn default() -> Self {
        Self::new()
    }
}

/// The number of arguments of a packed entry.
pub fn arity(entry: u64) -> usize {
    (entry >> 40) as u8 as usize
}

/// The arguments of a packed entry, at most four.
pub fn arguments(entry: u64) -> impl Iterator<Item = u8> {
    (0..arity(entry).min(4)).map(move |i| (entry >> (32 - 8 * i)) as u8)
}
