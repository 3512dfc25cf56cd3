//! Makes every call on the reference, and on a second engine if there is one, and holds answers,
//! pool bytes and output bytes against each other and against what is promised of any call:
//! a refused one changes no byte, and an unrefused one leaves a sound pool.

use crate::promises::step_wrong;
use generator::counts::Counts;
use generator::pools::{pool_bytes, Header};
use reference::calls::{open_with, run_with, step_with, take_with};
use reference::check::check;
use reference::child::Bound;
use reference::plain::{PlainPool, PlainSheet};
use reference::pool::View;
use reference::sound::broken;
use reference::{Limits, VERSION_1};

/// The four calls of an engine under test.
pub trait Calls {
    fn open(&mut self, book: &[u8], pool: &mut [u8], scheduler: u32, strategy: u32) -> u32;
    fn step(&mut self, book: &[u8], pool: &mut [u8], bound: Bound) -> u32;
    fn run(&mut self, book: &[u8], pool: &mut [u8], bound: Bound, budget: u32) -> (u32, u32);
    fn take(&mut self, book: &[u8], pool: &mut [u8], list: u32, out: &mut [u8]) -> u32;
}

/// What a call that must not be answered so says of itself.
pub type Judged<T> = Result<T, String>;

pub struct Judge<'a> {
    pub counts: Counts,
    pub calls: u64,
    pub other: Option<&'a mut dyn Calls>,
}

const LIMITS: &Limits = &VERSION_1;

fn hex(bytes: &[u8]) -> String {
    bytes.iter().map(|byte| format!("{byte:02x}")).collect()
}

/// The bytes of `pool` that are not zero, as runs with their offsets.
pub fn sparse(pool: &[u8]) -> String {
    let mut text = format!("length {}", pool.len());
    let mut at = 0;
    while at < pool.len() {
        if pool[at] == 0 {
            at += 1;
            continue;
        }
        let run = pool[at..].windows(4).position(|four| four == [0; 4]);
        let end = run.map_or(pool.len(), |run| at + run);
        text.push_str(&format!("\nat {at} {}", hex(&pool[at..end])));
        at = end;
    }
    text
}

/// A complaint, with all that is needed to make the call again.
fn complain(what: &str, book: &[u8], pool: &[u8]) -> String {
    format!("{what}\nbook {}\npool {}", hex(book), sparse(pool))
}

impl<'a> Judge<'a> {
    pub fn new(other: Option<&'a mut dyn Calls>) -> Self {
        Judge { counts: Counts::default(), calls: 0, other }
    }

    /// What holds after any call on a pool.
    fn after(
        &mut self,
        call: &str,
        answer: u32,
        book: &[u8],
        before: &[u8],
        now: &[u8],
    ) -> Judged<()> {
        self.calls += 1;
        if answer != 0 {
            self.counts.add(&format!("{call} answers {answer}"));
            if before != now {
                return Err(complain(
                    &format!("{call} answers {answer} and changes the pool"),
                    book,
                    before,
                ));
            }
            return Ok(());
        }
        self.counts.add(&format!("{call} done"));
        self.sound(call, book, before, now)
    }

    fn sound(&self, call: &str, book: &[u8], before: &[u8], now: &[u8]) -> Judged<()> {
        let checked = check(book).map_err(|f| complain(&format!("{call}: {f:?}"), book, before))?;
        let broken = broken(&View { bytes: now, limits: LIMITS }, &checked);
        if !broken.is_empty() {
            return Err(complain(
                &format!("{call} leaves a pool that breaks {broken:?}"),
                book,
                before,
            ));
        }
        Ok(())
    }

    /// Lowering never makes more passes over the keys than there are living elements.
    fn lowered(&self, book: &[u8], before: &[u8]) -> Judged<()> {
        let lowering = self.counts.lowering;
        if lowering.exceeds() {
            return Err(complain(&lowering.text(), book, before));
        }
        Ok(())
    }

    fn same(what: &str, same: bool, book: &[u8], before: &[u8]) -> Judged<()> {
        if same {
            return Ok(());
        }
        Err(complain(what, book, before))
    }

    pub fn open(
        &mut self,
        book: &[u8],
        pool: &mut [u8],
        scheduler: u32,
        strategy: u32,
    ) -> Judged<u32> {
        let before = pool.to_vec();
        let answer = open_with(LIMITS, book, pool, scheduler, strategy);
        self.after("open", answer, book, &before, pool)?;
        if answer == 0 {
            let slots = LIMITS.slots(pool.len()).unwrap_or(1);
            let header = Header { scheduler: scheduler as u8, strategy: strategy as u8, next: 1 };
            let one = PlainPool { lists: [vec![PlainSheet::default()], vec![], vec![]] };
            let image = pool_bytes(&one, header, slots, LIMITS);
            Self::same(
                "open writes another pool than one waiting, empty model 0",
                image == pool,
                book,
                &before,
            )?;
        }
        if let Some(other) = self.other.as_mut() {
            let mut theirs = before.clone();
            let got = other.open(book, &mut theirs, scheduler, strategy);
            let what = format!("open {scheduler} {strategy}: reference {answer}, engine {got}");
            Self::same(&what, got == answer && theirs == pool, book, &before)?;
        }
        Ok(answer)
    }

    pub fn step(&mut self, book: &[u8], pool: &mut [u8], bound: Bound) -> Judged<u32> {
        let before = pool.to_vec();
        let answer = step_with(LIMITS, book, pool, bound, &mut self.counts);
        self.lowered(book, &before)?;
        self.after("step", answer, book, &before, pool)?;
        if answer == 0 {
            let views = [&before[..], &pool[..]].map(|bytes| View { bytes, limits: LIMITS });
            if let Some(wrong) = step_wrong(&views[0], &views[1]) {
                return Err(complain(&format!("after a step: {wrong}"), book, &before));
            }
        }
        if let Some(other) = self.other.as_mut() {
            let mut theirs = before.clone();
            let got = other.step(book, &mut theirs, bound);
            let what = format!("step {bound:?}: reference {answer}, engine {got}");
            Self::same(&what, got == answer && theirs == pool, book, &before)?;
        }
        Ok(answer)
    }

    /// A run, held against its steps made one by one.
    pub fn run(
        &mut self,
        book: &[u8],
        pool: &mut [u8],
        bound: Bound,
        budget: u32,
    ) -> Judged<(u32, u32)> {
        let before = pool.to_vec();
        let (stop, steps) = run_with(LIMITS, book, pool, bound, budget, &mut self.counts);
        self.lowered(book, &before)?;
        self.calls += 1;
        self.counts.add(&format!("run answers {stop}"));
        let refused = (1..=13).contains(&stop);
        let what = format!("run {bound:?} {budget}: reference {stop} {steps}");
        if refused || steps == 0 {
            Self::same(
                &format!("{what}, and the pool changes"),
                before == pool && steps == 0,
                book,
                &before,
            )?;
        } else {
            self.sound("run", book, &before, pool)?;
        }
        if !refused {
            self.by_steps(book, &before, pool, bound, budget, (stop, steps))?;
        }
        if let Some(other) = self.other.as_mut() {
            let mut theirs = before.clone();
            let got = other.run(book, &mut theirs, bound, budget);
            let what = format!("{what}, engine {} {}", got.0, got.1);
            Self::same(&what, got == (stop, steps) && theirs == pool, book, &before)?;
        }
        Ok((stop, steps))
    }

    /// Is a run what its steps make, one call after the other?
    fn by_steps(
        &self,
        book: &[u8],
        before: &[u8],
        after: &[u8],
        bound: Bound,
        budget: u32,
        answer: (u32, u32),
    ) -> Judged<()> {
        let mut pool = before.to_vec();
        let mut silent = reference::watch::Silent;
        for _ in 0..answer.1 {
            if step_with(LIMITS, book, &mut pool, bound, &mut silent) != 0 {
                return Err(complain("a run makes more steps than can be made", book, before));
            }
        }
        let next = step_with(LIMITS, book, &mut pool.clone(), bound, &mut silent);
        let stop = if answer.1 == budget { 0 } else { next };
        let same = pool == after && answer.0 == stop;
        Self::same(&format!("a run is not its steps: {answer:?}, then {next}"), same, book, before)
    }

    pub fn take(&mut self, book: &[u8], pool: &mut [u8], list: u32, out: &mut [u8]) -> Judged<u32> {
        let (before, out_before) = (pool.to_vec(), out.to_vec());
        let answer = take_with(LIMITS, book, pool, list, out);
        self.after("take", answer, book, &before, pool)?;
        let sheet = LIMITS.sheet();
        if answer == 0 {
            let view = View { bytes: &before, limits: LIMITS };
            let slot = view.list(if list == 0 { 1 } else { 2 })[0] as usize;
            let now = View { bytes: pool, limits: LIMITS };
            let copied = out[..sheet] == *view.sheet(slot) && out[sheet..] == out_before[sheet..];
            let freed =
                now.sheet(slot).iter().all(|&byte| byte == 0) && now.used() >> slot & 1 == 0;
            Self::same("take copies or frees wrongly", copied && freed, book, &before)?;
            self.counts.add(&format!("take from list {list}"));
        } else {
            Self::same("a refused take writes its output", out == out_before, book, &before)?;
            if answer == 18 {
                self.counts.add(&format!("take answers 18 for list {list}"));
            }
        }
        if let Some(other) = self.other.as_mut() {
            let (mut theirs, mut written) = (before.clone(), out_before);
            let got = other.take(book, &mut theirs, list, &mut written);
            let what = format!("take {list} into {}: reference {answer}, engine {got}", out.len());
            let same = got == answer && theirs == pool && written == out;
            Self::same(&what, same, book, &before)?;
        }
        Ok(answer)
    }
}
