//! Calls at the boundaries of every argument, each with its name and the answer that document 01
//! gives it.

use crate::cases::{Cases, FREE, MAX, SHEET};
use crate::{chains, edges, steps};
use compare::judge::Calls;
use compare::tape::Tape;
use generator::damage::full_sheet;
use generator::draft::{Disjunct, Draft, Literal, Sequent, Term};
use generator::pools::{pool_bytes, Header};
use reference::book::{argument, head};
use reference::child::Bound;
use reference::plain::{PlainPool, PlainSheet};
use reference::VERSION_1;

/// The values at which scheduler, strategy and list are tried.
const SETTINGS: [u32; 4] = [0, 1, 2, MAX];

/// Writes every case to the tape; answers their lines and names.
pub fn write(tape: &mut Tape) -> Result<Vec<(usize, String)>, String> {
    let mut cases = Cases::new(tape);
    books(&mut cases);
    lengths(&mut cases);
    settings(&mut cases);
    outputs(&mut cases);
    all_slots(&mut cases);
    soundness(&mut cases);
    bounds(&mut cases);
    steps::write(&mut cases);
    chains::write(&mut cases);
    match cases.wrong {
        Some(text) => Err(text),
        None => Ok(cases.named),
    }
}

/// A book with one relation and nothing else.
fn small() -> Vec<u8> {
    Draft { relations: vec![0], ..Default::default() }.bytes()
}

/// A pool filled with one byte.
fn plain(length: usize, byte: u8) -> Vec<u8> {
    vec![byte; length]
}

/// A book of 32,767 bytes, the longest that there is: every book has an odd number of them.
fn longest() -> Vec<u8> {
    let constant = || Term::Constant(0);
    let full =
        || -> Vec<Literal> { (0..16).map(|_| Literal::Identity(constant(), constant())).collect() };
    let wide = || {
        let head = (0..8).map(|_| Disjunct { origins: vec![], literals: full() });
        Sequent { free: 0, body: full(), head: head.collect() }
    };
    let narrow = |literals: usize| {
        let body = (0..literals).map(|_| Literal::Fact(0, vec![])).collect();
        Sequent { free: 0, body, head: vec![] }
    };
    let mut draft = Draft { constants: 1, relations: vec![0], ..Default::default() };
    loop {
        let left = (32_767 - draft.bytes().len()) / 2;
        match left {
            0 => return draft.bytes(),
            739.. => draft.sequents.push(wide()),
            _ => draft.sequents.push(narrow(((left - 3) / 2).min(16))),
        }
    }
}

fn books(cases: &mut Cases) {
    let mut pool = plain(VERSION_1.pool(1), 7);
    cases.every("empty book", &[], &mut pool, 2);
    cases.every("empty book, empty pool", &[], &mut [], 2);
    cases.every("book cut behind its mark", b"RUL", &mut pool, 2);
    let mut book = longest();
    book.resize(32_769, 0);
    cases.every("book of 32,769 bytes", &book, &mut pool, 1);
    cases.every("book of 32,769 bytes, empty pool", &book, &mut [], 1);
    cases.every("book of 32,768 bytes", &book[..32_768], &mut pool, 10);
    cases.open("book of 32,767 bytes", &book[..32_767], &mut pool, [1, 1], 0);
    cases.take("book of 32,767 bytes", &book[..32_767], &mut pool, 0, SHEET, 18);
    cases.step("book of 32,767 bytes", &book[..32_767], &mut pool, FREE, 0);
    cases.take("book of 32,767 bytes, after a step", &book[..32_767], &mut pool, 0, SHEET, 0);
}

fn lengths(cases: &mut Cases) {
    let (book, full) = (small(), VERSION_1.pool(64));
    let right = [208 + SHEET, 208 + 2 * SHEET, full];
    let wrong = [0, 1, 207, 208, 209, 208 + 2127, 208 + 2129, full - 1, full + 1];
    let beyond = [full + SHEET - 1, full + SHEET, full + SHEET + 1];
    for length in wrong.into_iter().chain(beyond) {
        cases.every(&format!("pool of {length} bytes"), &book, &mut plain(length, 7), 11);
    }
    for length in right {
        let (mut pool, what) = (plain(length, 255), format!("pool of {length} bytes"));
        cases.take(&format!("{what}, all 255"), &book, &mut pool, 0, SHEET, 13);
        cases.open(&what, &book, &mut pool, [0, 0], 0);
        cases.take(&what, &book, &mut pool, 0, SHEET, 18);
        cases.take(&format!("{what}, cut by a byte"), &book, &mut pool[..length - 1], 0, SHEET, 11);
    }
}

fn settings(cases: &mut Cases) {
    let (book, mut pool) = (small(), plain(VERSION_1.pool(1), 3));
    for scheduler in SETTINGS {
        for strategy in SETTINGS {
            let what = format!("scheduler {scheduler}, strategy {strategy}");
            let wanted = if scheduler < 2 && strategy < 2 { 0 } else { 12 };
            cases.open(&what, &book, &mut pool, [scheduler, strategy], wanted);
            cases.open(&format!("{what}, empty pool"), &book, &mut [], [scheduler, strategy], 11);
        }
    }
    for list in SETTINGS {
        let wanted = if list < 2 { 18 } else { 12 };
        cases.take(&format!("list {list}"), &book, &mut pool, list, SHEET, wanted);
        cases.take(&format!("list {list}, no output"), &book, &mut pool, list, 0, wanted);
        cases.take(&format!("list {list}, empty book"), &[], &mut pool, list, SHEET, 2);
    }
}

/// All 64 elements in a chain, f(0) = 1, f(1) = 2 and so on, so that the last byte of the sheet, the
/// depth of the last element, is not zero.
fn chain() -> PlainSheet {
    let next = |e: u8| head(2, 0, 1) | argument(0, e) | (e + 1) as u64;
    let keys = std::iter::once(head(1, 0, 0)).chain((0..63).map(next)).collect();
    let depths = (0..64).map(|e| (e, e as u32)).collect();
    PlainSheet { number: 65_535, place: 0, created: 64, keys, facts: vec![], depths }
}

/// A sheet with all keys and facts that fit, complete, and the chain, bounded; a slot is free.
fn two_lists() -> (Vec<u8>, Vec<u8>) {
    let (draft, full) = full_sheet(&VERSION_1);
    let header = Header { scheduler: 1, strategy: 0, next: 65_536 };
    let pool = PlainPool { lists: [vec![], vec![full], vec![chain()]] };
    (draft.bytes(), pool_bytes(&pool, header, 3, &VERSION_1))
}

fn outputs(cases: &mut Cases) {
    let (book, pool) = two_lists();
    for list in [0, 1] {
        for (out, wanted) in [(0, 19), (1, 19), (2127, 19), (2128, 0), (2129, 0), (4096, 0)] {
            let (mut lent, what) = (pool.clone(), format!("list {list} into {out} bytes"));
            cases.take(&what, &book, &mut lent, list, out, wanted);
            if wanted == 0 {
                let what = format!("{what}, then from the list that is empty");
                cases.take(&what, &book, &mut lent, list, 0, 18);
            }
        }
    }
}

/// All 64 slots in one list, taken one after another.
fn all_slots(cases: &mut Cases) {
    let (book, header) = (small(), Header { scheduler: 0, strategy: 0, next: 64 });
    for list in [0, 1u32] {
        let mut held = PlainPool::default();
        let sheets = (0..64).map(|number| PlainSheet { number, ..Default::default() });
        held.lists[1 + list as usize] = sheets.collect();
        let mut pool = pool_bytes(&held, header, 64, &VERSION_1);
        for sheet in 0..64 {
            let what = format!("sheet {sheet} of 64, list {list}");
            cases.take(&what, &book, &mut pool, list, SHEET, 0);
        }
        cases.take(&format!("none of 64 left, list {list}"), &book, &mut pool, list, SHEET, 18);
    }
}

/// Each clause of soundness at its edges: a pool with a few bytes changed.
fn soundness(cases: &mut Cases) {
    let (book, pool) = edges::base();
    for (name, bytes, wanted) in edges::edges() {
        let mut lent = pool.clone();
        for (at, byte) in bytes {
            lent[at] = byte;
        }
        cases.take(&format!("pool with {name}"), &book, &mut lent, 0, SHEET, wanted);
    }
}

fn bounds(cases: &mut Cases) {
    let book = small();
    for kind in [0, 1, 2, 3, 4, MAX] {
        for number in [0, 1, MAX] {
            let mut pool = plain(VERSION_1.pool(1), 0);
            Calls::open(&mut compare::recorded::Reference, &book, &mut pool, 0, 0);
            let bound = Bound { kind, number };
            let refused = kind > 3 || (kind == 0 && number > 0);
            let what = format!("bound {kind} with {number}");
            let known = |stop, steps| if refused { (12, 0) } else { (stop, steps) };
            cases.step(&format!("{what}, empty pool"), &book, &mut [], bound, 11);
            cases.run(&format!("{what}, no budget"), &book, &mut pool, bound, 0, known(0, 0));
            cases.run(&format!("{what}, budget 1"), &book, &mut pool, bound, 1, known(0, 1));
            cases.run(&format!("{what}, no limit"), &book, &mut pool, bound, MAX, known(14, 0));
            cases.step(&what, &book, &mut pool, bound, known(14, 0).0);
        }
    }
}
