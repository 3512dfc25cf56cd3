//! The exported calls, made by a driver at the other end of two pipes (tests/calls/driver.c, which
//! says what a request and an answer are). The driver keeps the last book and the last pool, so
//! they are sent only when they are others.

use crate::judge::Calls;
use reference::child::Bound;
use std::io::{Error, ErrorKind, Read, Result, Write};
use std::process::{Child, ChildStdin, ChildStdout, Command, Stdio};

/// What a call answers that the driver did not answer: no number of any call.
pub const LOST: u32 = u32::MAX;

const OPEN: u32 = 0;
const STEP: u32 = 1;
const RUN: u32 = 2;
const TAKE: u32 = 3;
const KEEP: u32 = 0;

pub struct Driver {
    child: Child,
    to: Option<ChildStdin>,
    from: ChildStdout,
    book: Option<Vec<u8>>,
    pool: Option<Vec<u8>>,
    request: Vec<u8>,
    pub calls: u64,
}

impl Driver {
    /// Starts a driver: a program and its arguments.
    pub fn start(command: &[String]) -> Result<Driver> {
        let (program, rest) = command.split_first().ok_or(ErrorKind::InvalidInput)?;
        let (to, from) = (Stdio::piped(), Stdio::piped());
        let mut child = Command::new(program).args(rest).stdin(to).stdout(from).spawn()?;
        let from = child.stdout.take().ok_or(ErrorKind::BrokenPipe)?;
        let to = child.stdin.take();
        Ok(Driver { child, to, from, book: None, pool: None, request: Vec::new(), calls: 0 })
    }

    /// Ends the driver, which must not have anything to complain of.
    pub fn end(mut self) -> Result<()> {
        drop(self.to.take());
        let mut rest = Vec::new();
        self.from.read_to_end(&mut rest)?;
        let status = self.child.wait()?;
        if !status.success() || !rest.is_empty() {
            return Err(Error::other(format!("the driver ends with {status}")));
        }
        Ok(())
    }

    /// Where a buffer is to stand: in turn at the front and at the back of its pages, the pool
    /// taking its turns half as often as the book.
    fn places(&self, book: &[u8], pool: &[u8]) -> (u32, u32) {
        let turn = |kept: bool, count: u64| if kept { KEEP } else { 1 + (count % 2) as u32 };
        let same = |held: &Option<Vec<u8>>, bytes: &[u8]| held.as_deref() == Some(bytes);
        (turn(same(&self.book, book), self.calls), turn(same(&self.pool, pool), self.calls / 2))
    }

    fn exchange(
        &mut self,
        (call, given): (u32, [u32; 3]),
        book: &[u8],
        pool: &mut [u8],
        out: &mut [u8],
    ) -> Result<(u32, u32)> {
        let (book_place, pool_place) = self.places(book, pool);
        let lengths = [book.len(), pool.len(), out.len()].map(|length| length as u32);
        let [first, second, third] = given;
        let [book_len, pool_len, out_len] = lengths;
        let head =
            [call, first, second, third, book_place, book_len, pool_place, pool_len, out_len];
        self.request.clear();
        self.request.extend(head.iter().flat_map(|number| number.to_le_bytes()));
        if book_place != KEEP {
            self.request.extend_from_slice(book);
            self.book = Some(book.to_vec());
        }
        if pool_place != KEEP {
            self.request.extend_from_slice(pool);
        }
        self.request.extend_from_slice(out);
        self.to.as_mut().ok_or(ErrorKind::BrokenPipe)?.write_all(&self.request)?;
        let mut answer = [[0; 4]; 2];
        self.from.read_exact(answer.as_flattened_mut())?;
        self.from.read_exact(pool)?;
        self.from.read_exact(out)?;
        match &mut self.pool {
            Some(held) if held.len() == pool.len() => held.copy_from_slice(pool),
            held => *held = Some(pool.to_vec()),
        }
        Ok((u32::from_le_bytes(answer[0]), u32::from_le_bytes(answer[1])))
    }

    /// One call; `LOST` when the driver has ended, which then says why on standard error.
    fn call(
        &mut self,
        call: (u32, [u32; 3]),
        book: &[u8],
        pool: &mut [u8],
        out: &mut [u8],
    ) -> (u32, u32) {
        if self.to.is_none() {
            return (LOST, LOST);
        }
        self.calls += 1;
        self.exchange(call, book, pool, out).unwrap_or_else(|error| {
            self.to = None;
            eprintln!("the driver answers no more: {error}, {:?}", self.child.wait());
            (LOST, LOST)
        })
    }

    /// A call that is no run counts no steps.
    fn plain(
        &mut self,
        call: (u32, [u32; 3]),
        book: &[u8],
        pool: &mut [u8],
        out: &mut [u8],
    ) -> u32 {
        match self.call(call, book, pool, out) {
            (answer, 0) => answer,
            _ => LOST,
        }
    }
}

impl Calls for Driver {
    fn open(&mut self, book: &[u8], pool: &mut [u8], scheduler: u32, strategy: u32) -> u32 {
        self.plain((OPEN, [scheduler, strategy, 0]), book, pool, &mut [])
    }

    fn step(&mut self, book: &[u8], pool: &mut [u8], bound: Bound) -> u32 {
        self.plain((STEP, [bound.kind, bound.number, 0]), book, pool, &mut [])
    }

    fn run(&mut self, book: &[u8], pool: &mut [u8], bound: Bound, budget: u32) -> (u32, u32) {
        self.call((RUN, [bound.kind, bound.number, budget]), book, pool, &mut [])
    }

    fn take(&mut self, book: &[u8], pool: &mut [u8], list: u32, out: &mut [u8]) -> u32 {
        self.plain((TAKE, [list, 0, 0]), book, pool, out)
    }
}
