//! Scenarios of calls: books run on pools of all sizes with bounds that change, and every refusal
//! at every kind of number, each made on purpose so that its number is known beforehand.

use crate::judge::{Judge, Judged};
use crate::published::random_bound;
use generator::damage::{self, Sound};
use generator::draft::*;
use generator::faults::{self, Target};
use generator::pools::{self, Header};
use generator::rng::Rng;
use generator::shapes;
use reference::check::check;
use reference::child::Bound;
use reference::plain::PlainPool;
use reference::VERSION_1;

/// Choices after which a scenario ends: rules of four variables over many elements take long.
const SCENARIO_CHOICES: u64 = 10_000;

const FREE: Bound = Bound { kind: 0, number: 0 };

/// A scenario, by its kind.
pub fn scenario(judge: &mut Judge, rng: &mut Rng) -> Judged<()> {
    if rng.odds(1, 150) {
        return long_book(judge, rng);
    }
    match rng.below(9) {
        0..=2 => behave(judge, rng),
        3 => near_limits(judge, rng),
        4 => lengths_and_settings(judge, rng),
        5 => takes(judge, rng),
        6 => flipped(judge, rng),
        _ => unsound(judge, rng),
    }
}

fn expect(what: &str, got: u32, wanted: u32) -> Judged<()> {
    if got == wanted {
        return Ok(());
    }
    Err(format!("{what}: answered {got}, but {wanted} was made on purpose"))
}

/// An opened pool, or one made by hand, with its book's bytes.
fn begin(judge: &mut Judge, rng: &mut Rng) -> Judged<(Vec<u8>, Vec<u8>)> {
    let bytes = shapes::book(rng).bytes();
    let book = check(&bytes).map_err(|fault| format!("a shaped book is refused: {fault:?}"))?;
    if rng.odds(1, 3) {
        let (_, header, pool) = pools::pool(rng, &book, 6, 3, &VERSION_1);
        judge.counts.begin(&book, header.strategy == 1);
        return Ok((bytes, pool));
    }
    let slots = rng.pick(&[1, 2, 3, 6, 8, 12, 12, 12, 64, 64]);
    let mut pool: Vec<u8> = (0..VERSION_1.pool(slots)).map(|_| rng.byte()).collect();
    let (scheduler, strategy) = (rng.below(2) as u32, rng.below(2) as u32);
    judge.counts.begin(&book, strategy == 1);
    expect("open", judge.open(&bytes, &mut pool, scheduler, strategy)?, 0)?;
    Ok((bytes, pool))
}

/// Steps, runs and takes with bounds that change; every answer is the engine's own.
fn behave(judge: &mut Judge, rng: &mut Rng) -> Judged<()> {
    let (book, mut pool) = begin(judge, rng)?;
    let mut bound = random_bound(rng);
    let mut steps = 0;
    let most = judge.counts.choices + SCENARIO_CHOICES;
    for _ in 0..rng.range(7, 12) {
        if judge.counts.choices > most {
            break;
        }
        if rng.odds(1, 5) {
            let other = random_bound(rng);
            if other != bound && steps > 0 {
                judge.counts.add("bound changed between calls");
            }
            bound = other;
        }
        let (before, lifo) = (pool[12], pool[5] == 1);
        match rng.below(6) {
            0..=2 => {
                if judge.step(&book, &mut pool, bound)? == 0 {
                    steps += 1;
                }
                if pool[12] > before {
                    let name = if lifo { "LIFO" } else { "FIFO" };
                    judge.counts.add(&format!("{name} step that adds two children"));
                }
            }
            3..=4 => {
                let budget = rng.pick(&[0, 1, 3, 5, 6, 8, 10]);
                steps += judge.run(&book, &mut pool, bound, budget)?.1 as u64;
            }
            _ => {
                let mut out = vec![rng.byte(); VERSION_1.sheet() + rng.below(9)];
                judge.take(&book, &mut pool, rng.below(2) as u32, &mut out)?;
            }
        }
    }
    judge.counts.end(steps);
    Ok(())
}

/// Pools with few model numbers, elements, keys or facts left.
fn near_limits(judge: &mut Judge, rng: &mut Rng) -> Judged<()> {
    let (book, mut pool) = if rng.odds(1, 2) { crowded_sheet(rng)? } else { begin(judge, rng)? };
    let checked = check(&book).map_err(|fault| format!("{fault:?}"))?;
    judge.counts.begin(&checked, pool[6] == 1);
    if rng.odds(1, 3) {
        let next = 65_536 - rng.below(4) as u32;
        pool[8..12].copy_from_slice(&next.to_le_bytes());
    }
    if rng.odds(1, 3) {
        let sheet = 208 + pool[16] as usize * VERSION_1.sheet();
        let created = rng.range(61, 64) as u16;
        pool[sheet + 4..sheet + 6].copy_from_slice(&created.to_le_bytes());
    }
    for _ in 0..2 {
        judge.step(&book, &mut pool, FREE)?;
    }
    judge.run(&book, &mut pool, random_bound(rng), 4)?;
    expect("run of no steps", judge.run(&book, &mut pool, FREE, 0)?.0, 0)?;
    if book.len() < 200 {
        judge.run(&book, &mut pool, FREE, u32::MAX)?;
    }
    Ok(())
}

/// A sheet with nearly all keys and facts that fit, and rules that want more.
fn crowded_sheet(rng: &mut Rng) -> Judged<(Vec<u8>, Vec<u8>)> {
    let (constants, keys) = (rng.range(20, 40), rng.range(125, 128));
    let smaller =
        reference::Limits { elements: constants, keys, facts: rng.range(125, 128), ..VERSION_1 };
    let (mut draft, sheet) = damage::full_sheet(&smaller);
    draft.relations = vec![2, 1];
    let x = || Term::Variable(0);
    let mut rules = vec![
        Disjunct {
            origins: vec![Origin { kind: 0, witness: 0, arguments: vec![] }],
            literals: vec![Literal::Fact(1, vec![x()])],
        },
        Disjunct { origins: vec![], literals: vec![Literal::Fact(1, vec![Term::Constant(3)])] },
        Disjunct {
            origins: vec![],
            literals: vec![Literal::Identity(
                Term::Application(7, vec![Term::Constant(1)]),
                Term::Constant(1),
            )],
        },
    ];
    rules.swap(0, rng.below(3));
    let together = rng.range(1, 3);
    draft.sequents.push(Sequent { free: 0, body: vec![], head: rules[..together].to_vec() });
    let header = Header { scheduler: rng.below(2) as u8, strategy: 0, next: 1 };
    let pool = PlainPool { lists: [vec![sheet], vec![], vec![]] };
    Ok((draft.bytes(), pools::pool_bytes(&pool, header, rng.range(1, 4), &VERSION_1)))
}

/// Refusals 11 and 12 at each call, alone and before later ones.
fn lengths_and_settings(judge: &mut Judge, rng: &mut Rng) -> Judged<()> {
    let (book, pool) = begin(judge, rng)?;
    let sheet = VERSION_1.sheet();
    let lengths = [
        ("empty", 0),
        ("header alone", 208),
        ("one byte less", pool.len() - 1),
        ("one byte more", pool.len() + 1),
        ("65 slots", 208 + 65 * sheet),
    ];
    let (name, length) = rng.pick(&lengths);
    let mut short = pool.clone();
    short.resize(length, 0);
    judge.counts.add(&format!("length: {name}"));
    let known = rng.below(2) as u32;
    every_call(judge, rng, &book, &mut short, 11, known == 0)?;
    let mut pool = pool;
    if rng.odds(1, 2) {
        pool[0] ^= 1;
    }
    every_call(judge, rng, &book, &mut pool, 12, true)
}

/// A number outside 0 to `most`.
fn unknown(rng: &mut Rng, most: u32) -> u32 {
    rng.pick(&[most + 1, most + 2, 256, 65_536, u32::MAX])
}

/// The settings of all four calls, known ones or, with `odd`, unknown ones.
struct Settings {
    scheduler: u32,
    strategy: u32,
    bound: Bound,
    list: u32,
}

impl Settings {
    fn random(rng: &mut Rng, odd: bool) -> Self {
        let (scheduler, strategy, list) =
            (rng.below(2) as u32, rng.below(2) as u32, rng.below(2) as u32);
        let mut settings = Settings { scheduler, strategy, bound: random_bound(rng), list };
        if odd {
            let which = rng.below(3);
            if which != 1 {
                settings.scheduler = unknown(rng, 1);
            }
            if which != 0 {
                settings.strategy = unknown(rng, 1);
            }
            settings.bound = match rng.below(2) {
                0 => Bound { kind: unknown(rng, 3), number: rng.below(3) as u32 },
                _ => Bound { kind: 0, number: rng.pick(&[1, 256, u32::MAX]) },
            };
            settings.list = unknown(rng, 1);
        }
        settings
    }

    /// The names of the settings that are unknown.
    fn unknown(&self) -> Vec<&'static str> {
        let mut names = Vec::new();
        names.extend((self.scheduler > 1).then_some("scheduler"));
        names.extend((self.strategy > 1).then_some("strategy"));
        names.extend((self.bound.kind > 3).then_some("bound"));
        let numbered = self.bound.kind == 0 && self.bound.number != 0;
        names.extend(numbered.then_some("number of Unbounded"));
        names.extend((self.list > 1).then_some("list"));
        names
    }
}

/// All four calls, which must answer `wanted`; with `odd`, their settings are unknown.
fn every_call(
    judge: &mut Judge,
    rng: &mut Rng,
    book: &[u8],
    pool: &mut [u8],
    wanted: u32,
    odd: bool,
) -> Judged<()> {
    let settings = Settings::random(rng, odd);
    if wanted == 12 {
        for name in settings.unknown() {
            judge.counts.add(&format!("unknown {name}"));
        }
    }
    if wanted <= 12 {
        let answer = judge.open(book, pool, settings.scheduler, settings.strategy)?;
        expect("open", answer, wanted)?;
    }
    expect("step", judge.step(book, pool, settings.bound)?, wanted)?;
    let budget = rng.pick(&[0, 1, 7]);
    expect("run", judge.run(book, pool, settings.bound, budget)?.0, wanted)?;
    let mut out = vec![rng.byte(); rng.pick(&[0, 100, VERSION_1.sheet()])];
    expect("take", judge.take(book, pool, settings.list, &mut out)?, wanted)
}

/// Takes from both lists until 18, with outputs too short (19), just right and longer.
fn takes(judge: &mut Judge, rng: &mut Rng) -> Judged<()> {
    let bytes = shapes::book(rng).bytes();
    let book = check(&bytes).map_err(|fault| format!("{fault:?}"))?;
    let (plain, _, mut pool) = pools::pool(rng, &book, 5, 3, &VERSION_1);
    let sheet = VERSION_1.sheet();
    for list in [0, 1u32] {
        for held in &plain.lists[1 + list as usize] {
            let mut short = vec![rng.byte(); rng.pick(&[0, 1, sheet - 1])];
            expect("take", judge.take(&bytes, &mut pool, list, &mut short)?, 19)?;
            let mut out = vec![rng.byte(); sheet + rng.pick(&[0, 0, 1, 50])];
            expect("take", judge.take(&bytes, &mut pool, list, &mut out)?, 0)?;
            let image = pools::sheet_bytes(held, &VERSION_1);
            if out[..sheet] != image[..] {
                return Err(format!("take from list {list} gives another sheet"));
            }
        }
        let mut out = vec![rng.byte(); rng.pick(&[0, sheet])];
        expect("take", judge.take(&bytes, &mut pool, list, &mut out)?, 18)?;
    }
    Ok(())
}

/// A pool that breaks one clause, given to step, run and take.
fn unsound(judge: &mut Judge, rng: &mut Rng) -> Judged<()> {
    let names: Vec<&str> = damage::clauses().collect();
    let clause = rng.pick(&names);
    for _ in 0..40 {
        let (book, mut pool) = begin(judge, rng)?;
        judge.run(&book, &mut pool, random_bound(rng), 5)?;
        let from = Sound { book, pool };
        if let Some(mut damaged) = damage::damage(rng, &from, clause, &VERSION_1) {
            judge.counts.add(&format!("unsound in {clause}"));
            return every_call(judge, rng, &damaged.book.clone(), &mut damaged.pool, 13, false);
        }
    }
    Err(format!("no pool was found that breaks {clause} alone"))
}

/// A book with nearly all bytes or sequents that fit.
fn long_book(judge: &mut Judge, rng: &mut Rng) -> Judged<()> {
    let book = shapes::long_book(rng).bytes();
    let checked = check(&book).map_err(|fault| format!("a long book is refused: {fault:?}"))?;
    judge.counts.begin(&checked, true);
    judge.counts.add("long book");
    let mut pool = vec![rng.byte(); VERSION_1.pool(rng.pick(&[4, 12]))];
    expect("open", judge.open(&book, &mut pool, rng.below(2) as u32, 1)?, 0)?;
    for _ in 0..3 {
        judge.step(&book, &mut pool, random_bound(rng))?;
    }
    Ok(())
}

/// One to three bytes of book or pool changed at random; what the calls then answer is theirs.
fn flipped(judge: &mut Judge, rng: &mut Rng) -> Judged<()> {
    let (mut book, mut pool) = begin(judge, rng)?;
    judge.run(&book, &mut pool, random_bound(rng), 3)?;
    for _ in 0..rng.range(1, 3) {
        let near = rng.odds(1, 2);
        let bytes = if rng.odds(1, 3) { &mut book } else { &mut pool };
        let at = match rng.below(4) {
            0 => 8,
            _ => rng.below(if near { bytes.len().min(240) } else { bytes.len() }),
        };
        bytes[at] = if rng.odds(1, 2) { rng.byte() } else { rng.below(6) as u8 };
    }
    let bound = random_bound(rng);
    let step = judge.step(&book, &mut pool.clone(), bound)?;
    let refused = (1..=13).contains(&step);
    judge.counts.add(if refused { "flipped and refused" } else { "flipped and taken" });
    let (list, mut out) = (rng.below(2) as u32, vec![rng.byte(); VERSION_1.sheet()]);
    judge.take(&book, &mut pool.clone(), list, &mut out)?;
    judge.run(&book, &mut pool.clone(), bound, 1)?;
    judge.open(&book, &mut pool, rng.below(2) as u32, rng.below(2) as u32)?;
    Ok(())
}

/// A book with a fault at `target`, checked for number and place, and given to every call.
pub fn book_fault(judge: &mut Judge, rng: &mut Rng, target: Target) -> Judged<()> {
    for _ in 0..20 {
        let draft = if rng.odds(1, 2) { faults::full(rng) } else { shapes::book(rng) };
        let Some((bytes, fault)) = faults::faulty(rng, &draft, target) else { continue };
        let found = check(&bytes);
        if found.as_ref().err() != Some(&fault) {
            let got = found.map(|_| "no fault".to_string());
            return Err(format!("{fault:?} was made on purpose, found {got:?}; book {bytes:02x?}"));
        }
        judge.counts.add(&faults::name(target));
        let slots = rng.pick(&[1, 2, 12]);
        let mut pool = vec![rng.byte(); VERSION_1.pool(slots) - rng.below(2)];
        let odd = rng.odds(1, 2);
        return every_call(judge, rng, &bytes, &mut pool, fault.number, odd);
    }
    Err(format!("no book was found with {target:?}"))
}

/// The names that scenarios and book faults must meet.
pub fn names() -> Vec<String> {
    let mut names: Vec<String> = faults::targets().into_iter().map(faults::name).collect();
    let answers: [(&str, &[u32]); 4] = [
        ("open", &[1, 2, 3, 4, 5, 6, 7, 8, 9, 10, 11, 12]),
        ("step", &[1, 2, 3, 4, 5, 6, 7, 8, 9, 10, 11, 12, 13, 14, 15, 16, 17]),
        ("run", &[0, 1, 2, 3, 4, 5, 6, 7, 8, 9, 10, 11, 12, 13, 14, 15, 16, 17]),
        ("take", &[1, 2, 3, 4, 5, 6, 7, 8, 9, 10, 11, 12, 13, 18, 19]),
    ];
    for (call, numbers) in answers {
        names.extend(numbers.iter().map(|number| format!("{call} answers {number}")));
    }
    names.extend(["open", "step", "take"].map(|call| format!("{call} done")));
    names.extend(["flipped and refused", "flipped and taken", "long book"].map(String::from));
    names.extend(damage::clauses().map(|clause| format!("unsound in {clause}")));
    names.extend(["elements", "keys", "facts"].map(|room| format!("15 by {room}")));
    names.extend(["0", "1"].map(|list| format!("take from list {list}")));
    names.extend(["0", "1"].map(|list| format!("take answers 18 for list {list}")));
    let settings = ["scheduler", "strategy", "bound", "number of Unbounded", "list"];
    names.extend(settings.map(|name| format!("unknown {name}")));
    let lengths = ["empty", "header alone", "one byte less", "one byte more", "65 slots"];
    names.extend(lengths.map(|name| format!("length: {name}")));
    names
}
