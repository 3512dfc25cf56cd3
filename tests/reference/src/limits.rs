//! The limits and sizes of a pool version: the one place where they stand as numbers
//! (01 "The pool", docs/FORMAT.md).

/// The most bytes that a book may have.
pub const BOOK_BYTES: usize = 32_768;
/// The bytes of a pool's header, in every version.
pub const HEADER: usize = 208;
/// The most slots of a pool, and the room of each of its lists.
pub const SLOTS: usize = 64;
/// The bytes of a sheet before its keys.
pub const SHEET_HEAD: usize = 16;
/// How many model numbers there are.
pub const NUMBERS: u32 = 65_536;

/// How much a sheet of one pool version may hold.
#[derive(Clone, Copy, PartialEq, Eq, Debug)]
pub struct Limits {
    pub version: u16,
    pub elements: usize,
    pub keys: usize,
    pub facts: usize,
}

/// Pool version 1.
pub const VERSION_1: Limits = Limits { version: 1, elements: 64, keys: 128, facts: 128 };
/// Pool version 2, asked for later.
pub const VERSION_2: Limits = Limits { version: 2, elements: 256, keys: 512, facts: 512 };

/// The most rows of a table in any version.
pub const ROWS: usize = 512;
/// The most elements of a sheet in any version.
pub const ELEMENTS: usize = 256;

impl Limits {
    /// The bytes of a sheet, and so of a slot.
    pub const fn sheet(&self) -> usize {
        SHEET_HEAD + 8 * self.keys + 8 * self.facts + self.elements
    }

    /// The bytes of a pool with `slots` slots.
    pub const fn pool(&self, slots: usize) -> usize {
        HEADER + slots * self.sheet()
    }

    /// The number of slots of a pool of `length` bytes, if it is a pool's length.
    pub fn slots(&self, length: usize) -> Option<usize> {
        let room = length.checked_sub(HEADER)?;
        let slots = room / self.sheet();
        (room % self.sheet() == 0 && (1..=SLOTS).contains(&slots)).then_some(slots)
    }
}
