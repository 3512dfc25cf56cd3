//! A pool's header and slots, as a view over its bytes (docs/FORMAT.md "The pool").

use crate::limits::{Limits, HEADER, NUMBERS, SLOTS};

pub const WAITING: usize = 0;
pub const COMPLETE: usize = 1;
pub const BOUNDED: usize = 2;
pub const MARK: [u8; 3] = *b"MDL";

/// The byte of a header that counts `list`, and where its slot numbers begin.
const fn places(list: usize) -> (usize, usize) {
    (12 + list, 16 + SLOTS * list)
}

/// Reads of a pool's bytes. The length is a pool's.
#[derive(Clone, Copy)]
pub struct View<'a> {
    pub bytes: &'a [u8],
    pub limits: &'a Limits,
}

impl<'a> View<'a> {
    pub fn slots(&self) -> usize {
        (self.bytes.len() - HEADER) / self.limits.sheet()
    }

    pub fn scheduler(&self) -> u8 {
        self.bytes[5]
    }

    pub fn strategy(&self) -> u8 {
        self.bytes[6]
    }

    /// The next model number, or `NUMBERS` if they are used up.
    pub fn next(&self) -> u32 {
        u32::from_le_bytes(self.bytes[8..12].try_into().unwrap())
    }

    /// The slots that `list` names; a count over the room is cut to it.
    pub fn list(&self, list: usize) -> &'a [u8] {
        let (count, first) = places(list);
        let count = (self.bytes[count] as usize).min(SLOTS);
        &self.bytes[first..first + count]
    }

    /// The room of `list` behind its slots.
    pub fn list_tail(&self, list: usize) -> &'a [u8] {
        let (_, first) = places(list);
        &self.bytes[first + self.list(list).len()..first + SLOTS]
    }

    pub fn sheet(&self, slot: usize) -> &'a [u8] {
        let size = self.limits.sheet();
        &self.bytes[HEADER + slot * size..HEADER + (slot + 1) * size]
    }

    /// Every slot that a list names, in list order.
    pub fn named(&self) -> impl Iterator<Item = u8> + 'a {
        let view = *self;
        (0..3).flat_map(move |list| view.list(list).iter().copied())
    }

    /// The slots in use, as bits; slots that do not exist are left out.
    pub fn used(&self) -> u64 {
        let slots = self.slots();
        let real = self.named().filter(|&slot| (slot as usize) < slots);
        real.fold(0, |used, slot| used | 1 << slot)
    }

    /// How many model numbers are left.
    pub fn numbers_left(&self) -> u32 {
        NUMBERS.saturating_sub(self.next())
    }
}

/// Sets the next model number.
pub fn set_next(pool: &mut [u8], next: u32) {
    pool[8..12].copy_from_slice(&next.to_le_bytes());
}

/// Adds `slot` at the back of `list`.
pub fn push_back(pool: &mut [u8], list: usize, slot: u8) {
    let (count, first) = places(list);
    pool[first + pool[count] as usize] = slot;
    pool[count] += 1;
}

/// Adds `slot` at the front of `list`.
pub fn push_front(pool: &mut [u8], list: usize, slot: u8) {
    let (count, first) = places(list);
    let held = pool[count] as usize;
    pool.copy_within(first..first + held, first + 1);
    pool[first] = slot;
    pool[count] += 1;
}

/// Takes the first slot off `list`, which has one.
pub fn pop_front(pool: &mut [u8], list: usize) -> u8 {
    let (count, first) = places(list);
    let held = pool[count] as usize;
    let slot = pool[first];
    pool.copy_within(first + 1..first + held, first);
    pool[first + held - 1] = 0;
    pool[count] -= 1;
    slot
}

/// The bytes of a slot, lent to be written.
pub fn slot_mut<'a>(pool: &'a mut [u8], limits: &Limits, slot: u8) -> &'a mut [u8] {
    let size = limits.sheet();
    let at = HEADER + slot as usize * size;
    &mut pool[at..at + size]
}

/// Writes the pool that open makes: one waiting, empty model 0, in slot 0.
pub fn write_open(pool: &mut [u8], limits: &Limits, scheduler: u8, strategy: u8) {
    pool.fill(0);
    pool[..3].copy_from_slice(&MARK);
    pool[3..5].copy_from_slice(&limits.version.to_le_bytes());
    pool[5] = scheduler;
    pool[6] = strategy;
    set_next(pool, 1);
    push_back(pool, WAITING, 0);
}
