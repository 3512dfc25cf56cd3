//! The reference as a peer that steps books, so that one table of corners serves both sides.

use crate::published::{ended, Each, Peer, Start, Stepper};
use generator::pools::{pool_bytes, Header};
use reference::plain::{PlainPool, PlainSheet};
use reference::{chase_open, chase_run, chase_step, chase_take, VERSION_1};

pub struct ReferencePeer;

struct Pool<'a> {
    book: &'a [u8],
    bytes: Vec<u8>,
}

impl Peer for ReferencePeer {
    fn run(&self, start: &Start, each: &mut Each) {
        let mut bytes = vec![0; VERSION_1.pool(12)];
        match start.resumed {
            None => {
                chase_open(start.book, &mut bytes, start.scheduler, start.strategy);
            }
            Some((pool, next)) => {
                let (scheduler, strategy) = (start.scheduler as u8, start.strategy as u8);
                let header = Header { scheduler, strategy, next };
                bytes = pool_bytes(pool, header, 12, &VERSION_1);
            }
        }
        each(&mut Pool { book: start.book, bytes });
    }
}

impl Stepper for Pool<'_> {
    fn step(&mut self, bound: u32, number: u32) -> bool {
        chase_step(self.book, &mut self.bytes, bound, number) == 0
    }

    fn take(&mut self, list: usize) -> bool {
        let mut out = vec![0; VERSION_1.sheet()];
        chase_take(self.book, &mut self.bytes, list as u32, &mut out) == 0
    }

    fn state(&self) -> PlainPool {
        PlainPool::read(&self.bytes, &VERSION_1)
    }

    fn rest(&mut self, bound: u32, number: u32) -> Vec<PlainSheet> {
        chase_run(self.book, &mut self.bytes, bound, number, u32::MAX);
        ended(self.state())
    }
}
