//! Books against a peer that steps them by itself: state after every step, with places, numbers
//! and list order. The peer has no limits, so a book ends for the comparison where one is met.

use generator::counts::Counts;
use generator::rng::Rng;
use generator::{pools, shapes};
use reference::calls::step_with;
use reference::check::check;
use reference::child::Bound;
use reference::plain::{PlainPool, PlainSheet};
use reference::{chase_open, chase_take, Book, VERSION_1};

/// Choices that a book may take in all, and one step alone: the peer takes microseconds for each.
const BOOK_CHOICES: u64 = 4_000;
const STEP_CHOICES: u64 = 2_000;

/// How a comparison of one book begins.
pub struct Start<'a> {
    pub book: &'a [u8],
    pub scheduler: u32,
    pub strategy: u32,
    /// Sheets handed in, with the next model number, in place of an opened pool.
    pub resumed: Option<(&'a PlainPool, u32)>,
}

/// What the peer does for one book.
pub trait Stepper {
    fn step(&mut self, bound: u32, number: u32) -> bool;
    fn take(&mut self, list: usize) -> bool;
    fn state(&self) -> PlainPool;
    /// Runs to the end: complete sheets, then bounded ones, their places 0.
    fn rest(&mut self, bound: u32, number: u32) -> Vec<PlainSheet>;
}

/// The complete and the bounded sheets of a pool, their places 0, as `chase_all` answers.
pub fn ended(pool: PlainPool) -> Vec<PlainSheet> {
    let [_, complete, bounded] = pool.lists;
    let all = complete.into_iter().chain(bounded);
    all.map(|sheet| PlainSheet { place: 0, ..sheet }).collect()
}

pub type Each<'a> = dyn FnMut(&mut dyn Stepper) + 'a;

/// Makes a stepper for a start and hands it to `each`.
pub trait Peer: Sync {
    fn run(&self, start: &Start, each: &mut Each);
}

/// What a comparison met.
#[derive(Default)]
pub struct Report {
    pub counts: Counts,
    pub limited: u64,
    pub cut: u64,
    pub difference: Option<String>,
}

impl Report {
    pub fn join(&mut self, other: Report) {
        self.counts.join(&other.counts);
        self.limited += other.limited;
        self.cut += other.cut;
        if self.difference.is_none() {
            self.difference = other.difference;
        }
    }

    pub fn print(&self) {
        let counts = &self.counts;
        println!("books {} steps {} choices {}", counts.books, counts.steps, counts.choices);
        println!("books of five steps or more {}", counts.long_books);
        println!("books ended by a limit {}", self.limited);
        println!("books ended by the number of choices {}", self.cut);
        let same = if self.difference.is_none() { "none" } else { "one, and stopped there" };
        println!("differences {same}");
    }
}

/// A random bound: often none, otherwise a number that is met now and then.
pub fn random_bound(rng: &mut Rng) -> Bound {
    if rng.odds(1, 50) {
        let number = rng.pick(&[0, 255, 256, 65_536, u32::MAX]);
        return Bound { kind: rng.range(1, 3) as u32, number };
    }
    match rng.below(10) {
        0..=3 => Bound { kind: 0, number: 0 },
        4..=5 => Bound { kind: 1, number: rng.pick(&[1, 2, 3, 4, 5, 6, 7, 8, 9, 10, 12, 14]) },
        6..=7 => Bound { kind: 2, number: rng.pick(&[0, 1, 1, 2, 2, 2, 3, 3, 4]) },
        _ => Bound { kind: 3, number: rng.pick(&[0, 1, 1, 2, 2, 2, 3, 3, 4]) },
    }
}

/// Compares the books of `seed` with the given indices; stops at the first difference.
pub fn compare_books(peer: &dyn Peer, seed: u64, indices: impl Iterator<Item = u64>) -> Report {
    let mut report = Report::default();
    for index in indices {
        let one = std::panic::AssertUnwindSafe(|| compare_book(peer, seed, index, &mut report));
        let outcome = std::panic::catch_unwind(one);
        let difference = match outcome {
            Ok(None) => continue,
            Ok(Some(text)) => text,
            Err(_) => "a panic".to_string(),
        };
        report.difference = Some(format!("seed {seed} book {index}: {difference}"));
        break;
    }
    report
}

/// One book in the making of its comparison.
struct Case<'a> {
    rng: Rng,
    bytes: Vec<u8>,
    book: Book,
    pool: Vec<u8>,
    bound: Bound,
    changes: bool,
    choices: u64,
    /// Under one bound and without a take so far, and nothing waits any more.
    plain_end: Option<bool>,
    report: &'a mut Report,
}

/// A pool to start from: an opened one, or now and then sheets made by hand.
struct Beginning {
    pool: Vec<u8>,
    scheduler: u32,
    strategy: u32,
    resumed: Option<(PlainPool, u32)>,
}

fn beginning(rng: &mut Rng, bytes: &[u8], book: &Book) -> Result<Beginning, String> {
    if rng.odds(1, 6) {
        let (plain, header, _) = pools::pool(rng, book, 6, 3, &VERSION_1);
        let [waiting, _, _] = plain.lists;
        let lone = PlainPool { lists: [waiting, vec![], vec![]] };
        let pool = pools::pool_bytes(&lone, header, 64, &VERSION_1);
        let (scheduler, strategy) = (header.scheduler as u32, header.strategy as u32);
        return Ok(Beginning { pool, scheduler, strategy, resumed: Some((lone, header.next)) });
    }
    let (scheduler, strategy) = (rng.below(2) as u32, rng.below(2) as u32);
    let mut pool = vec![0xa5; VERSION_1.pool(64)];
    match chase_open(bytes, &mut pool, scheduler, strategy) {
        0 => Ok(Beginning { pool, scheduler, strategy, resumed: None }),
        refusal => Err(format!("open is refused: {refusal}")),
    }
}

/// Compares the book of an index.
fn compare_book(peer: &dyn Peer, seed: u64, index: u64, report: &mut Report) -> Option<String> {
    let mut rng = Rng::new(seed, index);
    let bytes = shapes::book(&mut rng).bytes();
    let book = match check(&bytes) {
        Ok(book) => book,
        Err(fault) => return Some(format!("the book is refused: {fault:?}")),
    };
    let from = match beginning(&mut rng, &bytes, &book) {
        Ok(from) => from,
        Err(text) => return Some(text),
    };
    let resumed = from.resumed.as_ref().map(|(plain, next)| (plain, *next));
    let (scheduler, strategy) = (from.scheduler, from.strategy);
    let start = Start { book: &bytes, scheduler, strategy, resumed };
    report.counts.begin(&book, strategy == 1);
    let (bound, changes) = (random_bound(&mut rng), rng.odds(1, 3));
    let (bytes, pool, plain_end) = (bytes.clone(), from.pool, Some(false));
    let mut case = Case { rng, bytes, book, pool, bound, changes, choices: 0, plain_end, report };
    let mut difference = None;
    peer.run(&start, &mut |stepper| difference = case.compare(stepper));
    if difference.is_none() && case.plain_end == Some(true) {
        peer.run(&start, &mut |stepper| difference = case.compare_all(stepper));
    }
    difference
}

impl Case<'_> {
    fn compare(&mut self, peer: &mut dyn Stepper) -> Option<String> {
        let most = self.rng.range(8, 30);
        let mut steps = 0;
        let mut difference = self.state(peer, "at the start");
        while difference.is_none() && steps < most {
            if self.changes && self.rng.odds(1, 4) {
                let bound = random_bound(&mut self.rng);
                if bound != self.bound && steps > 0 {
                    self.report.counts.add("bound changed between calls");
                }
                if bound != self.bound {
                    self.plain_end = None;
                }
                self.bound = bound;
            }
            match self.step(peer, steps + 1) {
                Ok(true) => steps += 1,
                Ok(false) => break,
                Err(text) => difference = Some(text),
            }
            if difference.is_none() && self.rng.odds(1, 8) {
                difference = self.take(peer);
            }
        }
        self.report.counts.end(steps as u64);
        difference
    }

    /// One step on both sides; false if the book ends here.
    fn step(&mut self, peer: &mut dyn Stepper, step: usize) -> Result<bool, String> {
        let (before, choices) = (self.pool[12], self.report.counts.choices);
        let counts = &mut self.report.counts;
        let answer = step_with(&VERSION_1, &self.bytes, &mut self.pool, self.bound, counts);
        let taken = self.report.counts.choices - choices;
        self.choices += taken;
        match answer {
            0 => {}
            14 if !peer.step(self.bound.kind, self.bound.number) => {
                self.plain_end = self.plain_end.map(|_| true);
                return Ok(false);
            }
            14 => return Err(format!("step {step}: nothing waits here, but the peer steps")),
            15..=17 => {
                self.report.limited += 1;
                return Ok(false);
            }
            other => return Err(format!("step {step}: refused {other}")),
        }
        if taken > STEP_CHOICES || self.choices > BOOK_CHOICES {
            self.report.cut += 1;
            return Ok(false);
        }
        if self.pool[12] > before {
            let lifo = self.pool[5] == 1;
            let name = if lifo { "LIFO" } else { "FIFO" };
            self.report.counts.add(&format!("{name} step that adds two children"));
        }
        if !peer.step(self.bound.kind, self.bound.number) {
            return Err(format!("step {step}: the peer has nothing waiting"));
        }
        match self.state(peer, &format!("after step {step} under {:?}", self.bound)) {
            None => Ok(true),
            Some(text) => Err(text),
        }
    }

    /// Takes from a random list on both sides.
    fn take(&mut self, peer: &mut dyn Stepper) -> Option<String> {
        let list = self.rng.below(2);
        let mut out = vec![0; VERSION_1.sheet()];
        let answer = chase_take(&self.bytes, &mut self.pool, list as u32, &mut out);
        let taken = peer.take(list);
        match (answer, taken) {
            (0, true) => {
                self.plain_end = None;
                self.report.counts.add(&format!("take from list {list}"));
            }
            (18, false) => {}
            _ => return Some(format!("take from list {list}: {answer}, peer {taken}")),
        }
        self.state(peer, "after a take")
    }

    /// Compares what the peer's own run to the end answers.
    fn compare_all(&mut self, peer: &mut dyn Stepper) -> Option<String> {
        let ours = ended(PlainPool::read(&self.pool, &VERSION_1));
        let theirs = peer.rest(self.bound.kind, self.bound.number);
        self.report.counts.add("run to the end in one call");
        (ours != theirs).then(|| format!("run to the end: {ours:?}\npeer: {theirs:?}"))
    }

    /// Compares the two states in full.
    fn state(&self, peer: &dyn Stepper, when: &str) -> Option<String> {
        let ours = PlainPool::read(&self.pool, &VERSION_1);
        let theirs = peer.state();
        (ours != theirs).then(|| {
            let book: String = self.bytes.iter().map(|byte| format!("{byte:02x}")).collect();
            let (sequents, ours, theirs) = (self.book.sequents.len(), ours.text(), theirs.text());
            format!(
                "{when}, {sequents} sequents, book {book}\n-- reference\n{ours}-- peer\n{theirs}"
            )
        })
    }
}
