//! Pools that break one clause of soundness and no other: each made from a sound pool by a
//! change made for that clause, and then held against all clauses.

use crate::draft::Draft;
use crate::pools::{self, Header};
use crate::rng::Rng;
use reference::book::{argument, head, Book, KEY};
use reference::check::check;
use reference::limits::{Limits, HEADER};
use reference::plain::{PlainPool, PlainSheet};
use reference::pool::View;
use reference::sheet::{arguments, arity};
use reference::sound::{broken, POOL_CLAUSES, SHEET_CLAUSES};

/// The names of all clauses.
pub fn clauses() -> impl Iterator<Item = &'static str> {
    let pool = POOL_CLAUSES.iter().map(|(name, _)| *name);
    pool.chain(SHEET_CLAUSES.iter().map(|(name, _)| *name))
}

/// A book and a pool that is sound for it.
#[derive(Clone)]
pub struct Sound {
    pub book: Vec<u8>,
    pub pool: Vec<u8>,
}

/// A sound pool and one that breaks `clause` alone, of the same length.
pub struct Damaged {
    pub book: Vec<u8>,
    pub sound: Vec<u8>,
    pub pool: Vec<u8>,
}

/// Breaks `clause` alone in `from`, or in a pool made for it; none if the tries run out.
pub fn damage(rng: &mut Rng, from: &Sound, clause: &str, limits: &Limits) -> Option<Damaged> {
    let own = match clause {
        "list-counts" => Some(crowded(rng, limits)),
        "key-count" | "fact-count" => Some(filled(rng, limits)),
        _ => None,
    };
    let from = own.as_ref().unwrap_or(from);
    let book = check(&from.book).ok()?;
    for _ in 0..12 {
        let mut sound = from.pool.clone();
        let mut pool = from.pool.clone();
        if !change(rng, &book, clause, &mut sound, &mut pool, limits) {
            continue;
        }
        let whole = broken(&View { bytes: &sound, limits }, &book).is_empty();
        if whole && broken(&View { bytes: &pool, limits }, &book) == [clause] {
            return Some(Damaged { book: from.book.clone(), sound, pool });
        }
    }
    None
}

/// A pool of 64 slots, all in one list.
fn crowded(rng: &mut Rng, limits: &Limits) -> Sound {
    let list = rng.below(3);
    let mut pool = PlainPool::default();
    pool.lists[list] = (0..64).map(|number| PlainSheet { number, ..Default::default() }).collect();
    let header = Header { scheduler: 0, strategy: rng.below(2) as u8, next: 64 };
    let book = Draft::default().bytes();
    Sound { book, pool: pools::pool_bytes(&pool, header, 64, limits) }
}

/// The book and the sheet of `filled` and of tests at the limits: all keys and facts that fit.
pub fn full_sheet(limits: &Limits) -> (Draft, PlainSheet) {
    let constants = limits.elements.min(64);
    let draft = Draft {
        constants: constants as u16,
        functions: vec![1; 8],
        relations: vec![2],
        constant_witnesses: 1,
        witnesses: vec![1; 8],
        sequents: Vec::new(),
    };
    let mut keys: Vec<u64> = (0..constants).map(|c| head(1, c as u8, 0) | c as u64).collect();
    for i in 0..limits.keys - constants {
        let entry = head(2, (i / constants) as u8, 1) | argument(0, (i % constants) as u8);
        keys.push(entry | ((i * 7) % constants) as u64);
    }
    let fact = |i: usize| argument(0, (i / constants) as u8) | argument(1, (i % constants) as u8);
    let facts = (0..limits.facts).map(|i| head(0, 0, 2) | fact(i)).collect();
    let depths = (0..constants).map(|c| (c as u8, 0)).collect();
    (draft, PlainSheet { number: 0, place: 0, created: constants, keys, facts, depths })
}

fn filled(rng: &mut Rng, limits: &Limits) -> Sound {
    let (draft, sheet) = full_sheet(limits);
    let mut pool = PlainPool::default();
    pool.lists[rng.below(3)].push(sheet);
    let header = Header { scheduler: 0, strategy: 0, next: 1 };
    Sound { book: draft.bytes(), pool: pools::pool_bytes(&pool, header, 1, limits) }
}

/// Changes `pool` so that `clause` may break; `sound` may be changed to stay near it.
fn change(
    rng: &mut Rng,
    book: &Book,
    clause: &str,
    sound: &mut Vec<u8>,
    pool: &mut Vec<u8>,
    limits: &Limits,
) -> bool {
    if POOL_CLAUSES.iter().any(|(name, _)| *name == clause) {
        return change_pool(rng, book, clause, pool, limits);
    }
    let view = View { bytes: pool, limits };
    let used: Vec<u8> = view.named().collect();
    if used.is_empty() {
        return false;
    }
    let slot = rng.pick(&used) as usize;
    let at = HEADER + slot * limits.sheet();
    let mut spot = Spot { rng, book, limits, sheet: pool[at..at + limits.sheet()].to_vec() };
    if clause == "depths-of-merged" {
        spot.spare_element();
        sound[at..at + limits.sheet()].copy_from_slice(&spot.sheet);
    }
    let changed = if clause.ends_with("-count") || clause.ends_with("-tail") {
        spot.change_room(clause)
    } else if clause.starts_with("fact") {
        spot.change_facts(clause)
    } else if clause.starts_with("key") {
        spot.change_keys(clause)
    } else {
        spot.change_rest(clause)
    };
    pool[at..at + limits.sheet()].copy_from_slice(&spot.sheet);
    changed
}

fn change_pool(rng: &mut Rng, book: &Book, clause: &str, pool: &mut [u8], limits: &Limits) -> bool {
    let view = View { bytes: pool, limits };
    let used: Vec<u8> = view.named().collect();
    let slots = view.slots();
    let list = rng.below(3);
    let (count, first) = (pool[12 + list] as usize, 16 + 64 * list);
    match clause {
        "mark" => pool[rng.below(3)] ^= rng.range(1, 255) as u8,
        "version" => pool[3 + rng.below(2)] ^= rng.range(1, 255) as u8,
        "scheduler" => pool[5] = rng.range(2, 255) as u8,
        "strategy" => pool[6] = rng.range(2, 255) as u8,
        "next-number" => {
            let next = rng.pick(&[65_537, 65_538, 1 << 17, u32::MAX]);
            pool[8..12].copy_from_slice(&next.to_le_bytes());
        }
        "header-spare" => pool[rng.pick(&[7, 15])] = rng.range(1, 255) as u8,
        "list-counts" => pool[12 + list] = rng.range(65, 255) as u8,
        "list-tails" if count < 64 => pool[first + rng.range(count, 63)] = rng.range(1, 255) as u8,
        "list-slots-exist" | "list-slots-once" if count < 64 => {
            if clause == "list-slots-once" && used.is_empty() {
                return false;
            }
            let beyond = rng.range(slots, 255) as u8;
            let slot = if clause == "list-slots-once" { rng.pick(&used) } else { beyond };
            pool[first + count] = slot;
            pool[12 + list] += 1;
        }
        "free-slots-zero" => {
            let free: Vec<usize> = (0..slots).filter(|&s| !used.contains(&(s as u8))).collect();
            if free.is_empty() {
                return false;
            }
            let at = HEADER + rng.pick(&free) * limits.sheet() + rng.below(limits.sheet());
            pool[at] = rng.range(1, 255) as u8;
        }
        _ if used.is_empty() => return false,
        _ => change_numbers(rng, book, clause, pool, limits, &used),
    }
    true
}

fn change_numbers(
    rng: &mut Rng,
    book: &Book,
    clause: &str,
    pool: &mut [u8],
    limits: &Limits,
    used: &[u8],
) {
    let at = |slot: u8| HEADER + slot as usize * limits.sheet();
    let (one, other) = (at(rng.pick(used)), at(rng.pick(used)));
    match clause {
        "numbers-differ" => pool.copy_within(other..other + 2, one),
        "numbers-below-next" => {
            let number = u16::from_le_bytes([pool[one], pool[one + 1]]) as u32;
            pool[8..12].copy_from_slice(&number.to_le_bytes());
        }
        _ => {
            let least =
                if clause == "place-linear" { 1 } else { book.sequents.len().max(1) as u16 };
            let place = rng.pick(&[least, least, least + 1, 65_535]);
            pool[one + 2..one + 4].copy_from_slice(&place.to_le_bytes());
        }
    }
}

/// One sheet to be damaged.
struct Spot<'a> {
    rng: &'a mut Rng,
    book: &'a Book,
    limits: &'a Limits,
    sheet: Vec<u8>,
}

impl Spot<'_> {
    fn plain(&self) -> PlainSheet {
        PlainSheet::read(&self.sheet, self.limits)
    }

    fn half(&self, at: usize) -> u16 {
        u16::from_le_bytes([self.sheet[at], self.sheet[at + 1]])
    }

    fn set_half(&mut self, at: usize, value: u16) {
        self.sheet[at..at + 2].copy_from_slice(&value.to_le_bytes());
    }

    /// Writes keys in order, with the depths that follow from them, as far as they do.
    fn write_keys(&mut self, mut keys: Vec<u64>) -> bool {
        keys.sort_by_key(|key| key & KEY);
        let mut plain = self.plain();
        let Some(depths) = pools::depths(&keys) else { return false };
        if keys.len() > self.limits.keys {
            return false;
        }
        plain.depths =
            depths.into_iter().filter(|d| (d.0 as usize) < self.limits.elements).collect();
        plain.keys = keys;
        self.sheet = pools::sheet_bytes(&plain, self.limits);
        true
    }

    /// Counts one more element as created; it has no key.
    fn spare_element(&mut self) {
        let created = self.half(4);
        if (created as usize) < self.limits.elements {
            self.set_half(4, created + 1);
        }
    }

    /// An element below the limit that no key yields.
    fn dead(&mut self, plain: &PlainSheet) -> Option<u8> {
        let living: Vec<u8> = plain.depths.iter().map(|d| d.0).collect();
        let dead: Vec<u8> =
            (0..self.limits.elements.min(255) as u8).filter(|e| !living.contains(e)).collect();
        (!dead.is_empty()).then(|| self.rng.pick(&dead))
    }

    /// A count over its limit, or a byte behind a table's rows that is not zero.
    fn change_room(&mut self, clause: &str) -> bool {
        let limits = self.limits;
        let facts_at = 16 + 8 * limits.keys;
        let depths_at = facts_at + 8 * limits.facts;
        let (keys, facts) = (self.half(6) as usize, self.half(8) as usize);
        let (count, most, tail) = match clause {
            "created-count" => (4, limits.elements, (0, 0)),
            "key-count" => (6, limits.keys, (0, 0)),
            "fact-count" => (8, limits.facts, (0, 0)),
            "key-tail" => (0, 0, (16 + 8 * keys, facts_at)),
            "fact-tail" => (0, 0, (facts_at + 8 * facts, depths_at)),
            _ => (0, 0, (depths_at + self.half(4) as usize, limits.sheet())),
        };
        if count > 0 {
            let over = most as u16 + 1;
            let value = self.rng.pick(&[over, over, over + 1, 65_535]);
            self.set_half(count, value);
            return true;
        }
        if tail.0 >= tail.1 {
            return false;
        }
        let at = self.rng.range(tail.0, tail.1 - 1);
        self.sheet[at] = self.rng.range(1, 255) as u8;
        true
    }

    fn change_rest(&mut self, clause: &str) -> bool {
        let created = self.half(4) as usize;
        let depths_at = self.limits.sheet() - self.limits.elements;
        let plain = self.plain();
        match clause {
            "sheet-spare" => {
                let at = self.rng.range(10, 15);
                self.sheet[at] = self.rng.range(1, 255) as u8;
            }
            "values-created" => {
                let Some(&(highest, _)) = plain.depths.last() else { return false };
                self.set_half(4, highest as u16);
                self.sheet[depths_at + highest as usize] = 0;
            }
            "depths" if !plain.depths.is_empty() => {
                let (element, depth) = self.rng.pick(&plain.depths);
                let wrong = self.rng.pick(&[depth + 1, depth.saturating_sub(1), 200]);
                self.sheet[depths_at + element as usize] = wrong as u8;
            }
            "depths-of-merged" => {
                let Some(dead) = self.dead(&plain).filter(|&e| (e as usize) < created) else {
                    return false;
                };
                self.sheet[depths_at + dead as usize] = self.rng.range(1, 255) as u8;
            }
            _ => return false,
        }
        true
    }

    fn change_keys(&mut self, clause: &str) -> bool {
        let plain = self.plain();
        let mut keys = plain.keys.clone();
        if keys.is_empty() {
            return false;
        }
        let at = self.rng.below(keys.len());
        let key = keys[at];
        match clause {
            "keys-rise" => return self.disorder(16, keys, at),
            "key-symbols" => keys[at] = self.undeclared(key),
            "key-arities" => keys[at] = self.other_arity(key, &plain),
            "key-padding" if arity(key) < 4 => {
                let unused = self.rng.range(arity(key), 3);
                keys[at] = key | argument(unused, self.rng.range(1, 255) as u8);
            }
            "key-arguments-yielded" if arity(key) > 0 => {
                let Some(dead) = self.dead(&plain) else { return false };
                let keep = plain.depths.clone();
                let place = self.rng.below(arity(key));
                keys[at] = (key & !argument(place, 0xff)) | argument(place, dead);
                // The damaged key gives no depth to its value unless another one does.
                keys.sort_by_key(|key| key & KEY);
                let damaged = PlainSheet { keys, depths: keep, ..plain };
                self.sheet = pools::sheet_bytes(&damaged, self.limits);
                return true;
            }
            _ => return false,
        }
        self.write_keys(keys)
    }

    /// Two rows change places, or one stands twice, perhaps with another value.
    fn disorder(&mut self, table: usize, mut rows: Vec<u64>, at: usize) -> bool {
        let count = if table == 16 { 6 } else { 8 };
        if self.rng.odds(1, 2) && rows.len() < self.limits.keys.min(self.limits.facts) {
            let mut again = rows[at];
            if table == 16 && self.rng.odds(1, 2) {
                again = (again & KEY) | (self.rng.pick(&rows) & 0xff);
            }
            rows.insert(at + self.rng.below(2), again);
            self.set_half(count, rows.len() as u16);
        } else {
            if at + 1 >= rows.len() {
                return false;
            }
            rows.swap(at, at + 1);
        }
        for (i, row) in rows.iter().enumerate() {
            self.sheet[table + 8 * i..table + 8 * i + 8].copy_from_slice(&row.to_be_bytes());
        }
        true
    }

    /// The key with a kind or symbol that the book does not have.
    fn undeclared(&mut self, key: u64) -> u64 {
        let kind = (key >> 56) as u8;
        let counts = [
            self.book.constants as usize,
            self.book.functions.len(),
            self.book.constant_witnesses as usize,
            self.book.witnesses.len(),
        ];
        if self.rng.odds(1, 3) {
            let unknown = self.rng.pick(&[0, 5, 6, 255]);
            return (key & !head(0xff, 0, 0)) | head(unknown, 0, 0);
        }
        let count = counts[(kind as usize).clamp(1, 4) - 1] as u8;
        let symbol = self.rng.pick(&[count, count, count + 1, 255]);
        (key & !head(0, 0xff, 0)) | head(0, symbol, 0)
    }

    /// The key with another number of arguments, all of them living elements.
    fn other_arity(&mut self, row: u64, plain: &PlainSheet) -> u64 {
        let living: Vec<u8> = plain.depths.iter().map(|d| d.0).collect();
        let now = arity(row);
        let other = self.rng.pick(&[0, 1, 2, 3, 4, 5, 255]);
        let other = if other == now { (now + 1) % 5 } else { other };
        let mut new = (row & head(0xff, 0xff, 0)) | head(0, 0, other as u8) | (row & 0xff);
        let old: Vec<u8> = arguments(row).collect();
        for i in 0..other.min(4) {
            let any = if living.is_empty() { 0 } else { self.rng.pick(&living) };
            new |= argument(i, old.get(i).copied().unwrap_or(any));
        }
        new
    }

    fn change_facts(&mut self, clause: &str) -> bool {
        let plain = self.plain();
        let mut facts = plain.facts.clone();
        if facts.is_empty() {
            return false;
        }
        let table = 16 + 8 * self.limits.keys;
        let at = self.rng.below(facts.len());
        let fact = facts[at];
        match clause {
            "facts-rise" => return self.disorder(table, facts, at),
            "fact-symbols" => {
                let count = self.book.relations.len() as u8;
                let symbol = self.rng.pick(&[count, count, count + 1, 255]);
                facts[at] = (fact & !head(0, 0xff, 0)) | head(0, symbol, 0);
            }
            "fact-arities" => facts[at] = self.other_arity(fact, &plain),
            "fact-padding" if arity(fact) < 4 => {
                let unused = self.rng.range(arity(fact), 3);
                facts[at] = fact | argument(unused, self.rng.range(1, 255) as u8);
            }
            "fact-edges" => {
                let shift = self.rng.pick(&[0, 56]);
                facts[at] = fact | (self.rng.range(1, 255) as u64) << shift;
            }
            "fact-arguments-yielded" if arity(fact) > 0 => {
                let Some(dead) = self.dead(&plain) else { return false };
                let place = self.rng.below(arity(fact));
                facts[at] = (fact & !argument(place, 0xff)) | argument(place, dead);
            }
            _ => return false,
        }
        facts.sort_unstable();
        facts.dedup();
        self.sheet = pools::sheet_bytes(&PlainSheet { facts, ..plain }, self.limits);
        true
    }
}
