//! Named calls: each is written to the tape, and its answer held to the one that is wanted.

use compare::judge::Calls;
use compare::tape::Tape;
use reference::child::Bound;
use reference::plain::PlainPool;
use reference::pool::{View, BOUNDED, COMPLETE, WAITING};
use reference::VERSION_1;

pub const MAX: u32 = u32::MAX;
pub const SHEET: usize = VERSION_1.sheet();
pub const FREE: Bound = Bound { kind: 0, number: 0 };

/// The cases so far: the line of each, and its name.
pub struct Cases<'a> {
    tape: &'a mut Tape,
    pub named: Vec<(usize, String)>,
    pub wrong: Option<String>,
}

impl<'a> Cases<'a> {
    pub fn new(tape: &'a mut Tape) -> Self {
        Cases { tape, named: Vec::new(), wrong: None }
    }

    /// Holds the answer of the call just made to the one that is wanted, and notes its name.
    fn case(&mut self, before: usize, name: String, got: (u32, u32), wanted: (u32, u32)) {
        if got != wanted && self.wrong.is_none() {
            self.wrong = Some(format!("{name}: answers {got:?}, not {wanted:?}"));
        }
        if self.tape.records > before {
            self.named.push((self.tape.records, name));
        }
    }

    pub fn open(
        &mut self,
        what: &str,
        book: &[u8],
        pool: &mut [u8],
        numbers: [u32; 2],
        wanted: u32,
    ) {
        let before = self.tape.records;
        let answer = self.tape.open(book, pool, numbers[0], numbers[1]);
        let name = format!("open, {what}");
        self.case(before, name, (answer, 0), (wanted, 0));
    }

    pub fn step(&mut self, what: &str, book: &[u8], pool: &mut [u8], bound: Bound, wanted: u32) {
        let before = self.tape.records;
        let answer = self.tape.step(book, pool, bound);
        self.case(before, format!("step, {what}"), (answer, 0), (wanted, 0));
    }

    pub fn run(
        &mut self,
        what: &str,
        book: &[u8],
        pool: &mut [u8],
        bound: Bound,
        budget: u32,
        wanted: (u32, u32),
    ) {
        let before = self.tape.records;
        let answer = self.tape.run(book, pool, bound, budget);
        self.case(before, format!("run, {what}"), answer, wanted);
    }

    pub fn take(
        &mut self,
        what: &str,
        book: &[u8],
        pool: &mut [u8],
        list: u32,
        out: usize,
        wanted: u32,
    ) {
        let before = self.tape.records;
        let answer = self.tape.take(book, pool, list, &mut vec![9; out]);
        self.case(before, format!("take, {what}"), (answer, 0), (wanted, 0));
    }

    /// All four calls, the same answer; settings are known, the output a sheet's.
    pub fn every(&mut self, what: &str, book: &[u8], pool: &mut [u8], wanted: u32) {
        self.open(what, book, pool, [0, 0], wanted);
        self.step(what, book, pool, FREE, wanted);
        self.run(what, book, pool, FREE, MAX, (wanted, 0));
        self.take(what, book, pool, 0, SHEET, wanted);
    }
    fn held_to(&mut self, what: &str, found: &str, wanted: &str) {
        if self.wrong.is_none() && found != wanted {
            self.wrong = Some(format!("{what}: wanted\n{wanted}found\n{found}"));
        }
    }

    /// Holds the sheets of a pool to a plain text.
    pub fn reads(&mut self, what: &str, pool: &[u8], text: &str) {
        self.held_to(what, &PlainPool::read(pool, &VERSION_1).text(), text);
    }

    /// Holds a pool to the slots that its three lists name, and to its next number.
    pub fn names(&mut self, what: &str, pool: &[u8], lists: [&[u8]; 3], next: u32) {
        let view = View { bytes: pool, limits: &VERSION_1 };
        let named = [WAITING, COMPLETE, BOUNDED].map(|list| view.list(list));
        let said = |lists: [&[u8]; 3], next: u32| format!("{lists:?} next {next}\n");
        self.held_to(what, &said(named, view.next()), &said(lists, next));
    }

    /// Holds a pool to what it was before.
    pub fn kept(&mut self, what: &str, pool: &[u8], before: &[u8]) {
        let said = |same: bool| if same { "as before\n" } else { "changed\n" };
        self.held_to(what, said(pool == before), said(true));
    }
}
