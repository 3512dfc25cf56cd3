//! Calls written down for `crates/replaycalls`, which makes them again: its input, and the lines
//! that it must print, answers and sums being the reference's. The form of a record stands in that
//! program's first lines.
//!
//! A tape is an engine: whatever is held against engines can be written down. It keeps the
//! program's buffers as the records leave them, so that a record holds only what differs.

use crate::judge::Calls;
use crate::recorded::Reference;
use reference::child::Bound;

/// The room of the program's buffers.
const BOOK: usize = 40_000;
const POOL: usize = 140_000;
const OUT: usize = 4_096;
/// What the bytes of a stretch are preceded by: its place and its length.
const STRETCH: usize = 8;

/// The calls by their numbers in a record.
#[derive(Clone, Copy, PartialEq, Eq)]
enum Call {
    Open = 1,
    Step = 2,
    Run = 3,
    Take = 4,
}

/// The program's sum of a buffer.
pub fn sum(bytes: &[u8]) -> u64 {
    let more = |h: u64, &byte: &u8| (h * 2_654_435_761 + byte as u64 + 1) % 4_294_967_291;
    bytes.iter().fold(0, more)
}

/// How a pool comes to be in the program's buffer: filled anew or as before, then stretches.
struct Written {
    anew: Option<u8>,
    stretches: Vec<(usize, usize)>,
}

impl Written {
    /// What leads from `old` to `new`; stretches are one where a gap costs less than a new one.
    fn over(old: impl Fn(usize) -> u8, new: &[u8], anew: Option<u8>) -> Self {
        let mut stretches: Vec<(usize, usize)> = Vec::new();
        for at in (0..new.len()).filter(|&at| new[at] != old(at)) {
            match stretches.last_mut() {
                Some((_, end)) if at <= *end + STRETCH => *end = at + 1,
                _ => stretches.push((at, at + 1)),
            }
        }
        Written { anew, stretches }
    }

    fn cost(&self) -> usize {
        self.stretches.iter().map(|(at, end)| STRETCH + end - at).sum()
    }

    /// The cheapest way to `new` from the buffer `held`.
    fn cheapest(held: &[u8], new: &[u8]) -> Self {
        let mut best = Written::over(|at| held[at], new, None);
        for fill in [0, new.first().copied().unwrap_or(0)] {
            let other = Written::over(|_| fill, new, Some(fill));
            if other.cost() < best.cost() {
                best = other;
            }
        }
        best
    }
}

#[derive(Clone)]
pub struct Tape {
    /// The program's standard input, and what it must print.
    pub input: Vec<u8>,
    pub lines: String,
    pub records: usize,
    /// Records that cost more bytes than this are left out.
    pub most: usize,
    /// Whether step and run are written down too.
    all: bool,
    book: Vec<u8>,
    pool: Vec<u8>,
}

impl Tape {
    pub fn new(all: bool) -> Self {
        let (book, pool) = (vec![0; BOOK], vec![0; POOL]);
        let (input, lines) = (Vec::new(), String::new());
        Tape { input, lines, records: 0, most: usize::MAX, all, book, pool }
    }

    /// What the program prints: the lines of its records, and how many they are.
    pub fn printed(&self) -> String {
        format!("{}end after {}\n", self.lines, self.records)
    }

    fn put(&mut self, numbers: &[usize]) {
        for &number in numbers {
            self.input.extend_from_slice(&(number as u32).to_le_bytes());
        }
    }

    /// Writes the record of a call before it is made, and its buffers as they then stand; not if
    /// the call is left out.
    fn write(
        &mut self,
        call: Call,
        book: &[u8],
        pool: &[u8],
        out: usize,
        numbers: [u32; 3],
    ) -> bool {
        let left_out = !self.all && matches!(call, Call::Step | Call::Run);
        if left_out || book.len() > BOOK || pool.len() > POOL || out > OUT {
            return false;
        }
        let new_book = self.book[..book.len()] != *book;
        let way = Written::cheapest(&self.pool, pool);
        if way.cost() + if new_book { book.len() } else { 0 } > self.most {
            return false;
        }
        let (anew, fill) = (way.anew.is_some() as u8, way.anew.unwrap_or(0));
        self.input.extend_from_slice(&[call as u8, new_book as u8, anew, fill]);
        self.put(&[book.len(), pool.len(), out, way.stretches.len()]);
        self.put(&numbers.map(|number| number as usize));
        if new_book {
            self.input.extend_from_slice(book);
            self.book[..book.len()].copy_from_slice(book);
        }
        for (at, end) in way.stretches {
            self.put(&[at, end - at]);
            self.input.extend_from_slice(&pool[at..end]);
        }
        self.pool[..pool.len()].copy_from_slice(pool);
        true
    }

    /// Writes the line of the call that was made on the buffers.
    fn line(&mut self, answer: &str, book: usize, pool: usize, out: Option<&[u8]>) {
        self.lines.push_str(answer);
        for lent in [Some(&self.book[..book]), Some(&self.pool[..pool]), out].into_iter().flatten()
        {
            self.lines.push_str(&format!(" {:08x}", sum(lent)));
        }
        self.lines.push('\n');
        self.records += 1;
    }
}

impl Calls for Tape {
    /// Where the pool costs too much, as one of random bytes, a pool of one byte stands for it.
    fn open(&mut self, book: &[u8], pool: &mut [u8], scheduler: u32, strategy: u32) -> u32 {
        let (len, numbers) = (pool.len(), [scheduler, strategy, 0]);
        let plain = vec![pool.first().copied().unwrap_or(0); len];
        if self.write(Call::Open, book, pool, 0, numbers)
            || self.write(Call::Open, book, &plain, 0, numbers)
        {
            let answer = Reference.open(book, &mut self.pool[..len], scheduler, strategy);
            self.line(&format!("open {answer}"), book.len(), len, None);
        }
        Reference.open(book, pool, scheduler, strategy)
    }

    fn step(&mut self, book: &[u8], pool: &mut [u8], bound: Bound) -> u32 {
        let (len, numbers) = (pool.len(), [bound.kind, bound.number, 0]);
        if self.write(Call::Step, book, pool, 0, numbers) {
            let answer = Reference.step(book, &mut self.pool[..len], bound);
            self.line(&format!("step {answer}"), book.len(), len, None);
        }
        Reference.step(book, pool, bound)
    }

    fn run(&mut self, book: &[u8], pool: &mut [u8], bound: Bound, budget: u32) -> (u32, u32) {
        let (len, numbers) = (pool.len(), [bound.kind, bound.number, budget]);
        if self.write(Call::Run, book, pool, 0, numbers) {
            let (stop, steps) = Reference.run(book, &mut self.pool[..len], bound, budget);
            self.line(&format!("run {stop} {steps}"), book.len(), len, None);
        }
        Reference.run(book, pool, bound, budget)
    }

    /// The program's output is nines, whatever the one that was given.
    fn take(&mut self, book: &[u8], pool: &mut [u8], list: u32, out: &mut [u8]) -> u32 {
        let len = pool.len();
        if self.write(Call::Take, book, pool, out.len(), [list, 0, 0]) {
            let mut nines = vec![9; out.len()];
            let answer = Reference.take(book, &mut self.pool[..len], list, &mut nines);
            self.line(&format!("take {answer}"), book.len(), len, Some(&nines));
        }
        Reference.take(book, pool, list, out)
    }
}
