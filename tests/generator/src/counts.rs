//! Counts of what was met. Events of a step are told by the reference itself, where they happen;
//! answers of calls are counted by whoever makes the calls.

use reference::watch::{Firing, Room, Watch};
use reference::Book;
use std::collections::BTreeMap;

/// What was met, by name.
#[derive(Clone, Debug, Default)]
pub struct Counts {
    pub met: BTreeMap<String, u64>,
    pub choices: u64,
    pub books: u64,
    pub steps: u64,
    pub long_books: u64,
    pub fair: bool,
    pub lowering: Lowering,
    shared: Vec<bool>,
}

/// The most that lowering took: passes over the keys, the last one that finds nothing among them,
/// for each living element.
#[derive(Clone, Copy, Debug, Default)]
pub struct Lowering {
    pub passes: usize,
    pub living: usize,
}

impl Lowering {
    /// The one that took more passes for an element; of two alike, the one with more elements.
    fn most(self, other: Lowering) -> Lowering {
        let (here, there) = (self.passes * other.living, other.passes * self.living);
        let more = there > here || there == here && other.living > self.living;
        if self.living == 0 || more {
            other
        } else {
            self
        }
    }

    /// Were there ever more passes than living elements?
    pub fn exceeds(&self) -> bool {
        self.passes > self.living
    }

    pub fn text(&self) -> String {
        format!("lowering makes {} passes over the keys of {} elements", self.passes, self.living)
    }
}

/// Names of events in a step that every run of the comparison must meet.
pub const EVENTS: [&str; 30] = [
    "firing choice not the first, two or more variables",
    "firing with two or more disjuncts",
    "Fair's place advances",
    "Fair's place wraps",
    "Fair's search wraps",
    "base failed",
    "base complete",
    "child bounded",
    "depth lowered through a key",
    "merge",
    "merge with one congruent round",
    "merge with two or more congruent rounds",
    "literal over an element merged away, bound 0",
    "literal over an element merged away, bound 1",
    "literal over an element merged away, bound 2",
    "literal over an element merged away, bound 3",
    "literal skipped, bound 1",
    "literal skipped, bound 2",
    "literal skipped, bound 3",
    "nested term recorded",
    "nullary application recorded",
    "child of a shared witness",
    "unmentioned existential recorded",
    "FIFO step that adds two children",
    "LIFO step that adds two children",
    "bound changed between calls",
    "book of five steps or more",
    "literal over an element merged away skipped, bound 1",
    "literal over an element merged away skipped, bound 2",
    "literal over an element merged away skipped, bound 3",
];

impl Counts {
    pub fn add(&mut self, name: &str) {
        match self.met.get_mut(name) {
            Some(count) => *count += 1,
            None => {
                self.met.insert(name.to_string(), 1);
            }
        }
    }

    /// Begins a book: which of its disjuncts have an origin whose witness another origin has.
    pub fn begin(&mut self, book: &Book, fair: bool) {
        self.fair = fair;
        let twice = |head: u64| book.origins.iter().filter(|o| o.head == head).count() > 1;
        let shared = book.disjuncts.iter().map(|disjunct| {
            reference::book::rows(&book.origins, disjunct.origins).iter().any(|o| twice(o.head))
        });
        self.shared = shared.collect();
    }

    /// Ends a book that ran `steps` steps.
    pub fn end(&mut self, steps: u64) {
        self.books += 1;
        self.steps += steps;
        if steps >= 5 {
            self.long_books += 1;
            self.add("book of five steps or more");
        }
    }

    pub fn join(&mut self, other: &Counts) {
        for (name, count) in &other.met {
            *self.met.entry(name.clone()).or_default() += count;
        }
        self.choices += other.choices;
        self.books += other.books;
        self.steps += other.steps;
        self.long_books += other.long_books;
        self.lowering = self.lowering.most(other.lowering);
    }

    /// The names among `wanted` that were met less than `floor` times.
    pub fn short<'a>(
        &self,
        wanted: impl Iterator<Item = &'a str>,
        floor: u64,
    ) -> Vec<(String, u64)> {
        let held = |name: &str| self.met.get(name).copied().unwrap_or(0);
        wanted.map(|n| (n.to_string(), held(n))).filter(|(_, count)| *count < floor).collect()
    }
}

impl Watch for Counts {
    fn choice(&mut self) {
        self.choices += 1;
    }

    fn fired(&mut self, firing: &Firing) {
        if !firing.first_choice && firing.free >= 2 {
            self.add(EVENTS[0]);
        }
        if firing.disjuncts >= 2 {
            self.add(EVENTS[1]);
        }
        if self.fair && firing.sequents >= 2 {
            let last = firing.sequent + 1 == firing.sequents;
            self.add(if last { EVENTS[3] } else { EVENTS[2] });
            if firing.sequent < firing.started {
                self.add(EVENTS[4]);
            }
        }
    }

    fn failed(&mut self) {
        self.add(EVENTS[5]);
    }

    fn complete(&mut self) {
        self.add(EVENTS[6]);
    }

    fn child_bounded(&mut self) {
        self.add(EVENTS[7]);
    }

    fn child(&mut self, disjunct: usize) {
        if self.shared.get(disjunct) == Some(&true) {
            self.add(EVENTS[21]);
        }
    }

    fn lowered(&mut self) {
        self.add(EVENTS[8]);
    }

    fn lowering_done(&mut self, passes: usize, _: usize, living: usize) {
        self.lowering = self.lowering.most(Lowering { passes, living });
    }

    fn merge_done(&mut self, rounds: u32) {
        self.add(EVENTS[9]);
        match rounds {
            0 | 1 => {}
            2 => self.add(EVENTS[10]),
            _ => self.add(EVENTS[11]),
        }
    }

    fn literal_over_merged(&mut self, bound: u32) {
        self.add(EVENTS[12 + bound as usize]);
    }

    fn skipped_literal(&mut self, bound: u32, over_merged: bool) {
        self.add(EVENTS[15 + bound as usize]);
        if over_merged {
            self.add(EVENTS[26 + bound as usize]);
        }
    }

    fn recorded_nested(&mut self) {
        self.add(EVENTS[19]);
    }

    fn recorded_nullary(&mut self) {
        self.add(EVENTS[20]);
    }

    fn recorded_appended(&mut self) {
        self.add(EVENTS[22]);
    }

    fn out_of_room(&mut self, room: Room) {
        self.add(&format!("15 by {}", format!("{room:?}").to_lowercase()));
    }
}
