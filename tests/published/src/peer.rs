//! The published machine as a peer of the comparison.

use crate::{machine, read};
use compare::published::{Each, Peer, Start, Stepper};
use reference::plain::{PlainPool, PlainSheet};

pub struct Published;

impl Peer for Published {
    fn run(&self, start: &Start, each: &mut Each) {
        let sequents = read::sequents(start.book);
        let mut machine = match start.resumed {
            None => machine::open(&sequents, start.scheduler, start.strategy),
            Some((pool, next)) => {
                let (scheduler, strategy) = (start.scheduler, start.strategy);
                machine::resume(&sequents, scheduler, strategy, &pool.lists[0], next as u64)
            }
        };
        each(&mut Wrapped(&mut *machine));
    }
}

struct Wrapped<'a, 's>(&'a mut (dyn machine::Steps + 's));

impl Stepper for Wrapped<'_, '_> {
    fn step(&mut self, bound: u32, number: u32) -> bool {
        self.0.step(bound, number)
    }

    fn take(&mut self, list: usize) -> bool {
        self.0.take(list)
    }

    fn state(&self) -> PlainPool {
        self.0.state()
    }

    fn rest(&mut self, bound: u32, number: u32) -> Vec<PlainSheet> {
        self.0.rest(bound, number)
    }
}
