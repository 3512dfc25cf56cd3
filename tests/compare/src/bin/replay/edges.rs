//! One pool changed by a byte or a few, to each side of every clause of soundness: takes from it,
//! with the answer that document 01 gives, 0 where the changed pool is still sound.

use generator::draft::{Draft, Sequent};
use generator::pools::{pool_bytes, Header};
use reference::book::{argument, head};
use reference::plain::{PlainPool, PlainSheet};
use reference::{Limits, VERSION_1};

const LIMITS: &Limits = &VERSION_1;
/// The pool has four slots; 0 and 3 are free.
const SLOTS: usize = 4;

/// A change: its name, the bytes set, and take's answer.
pub type Edge = (String, Vec<(usize, u8)>, u32);

fn edge(name: &str, bytes: &[(usize, u8)], answer: u32) -> Edge {
    (name.to_string(), bytes.to_vec(), answer)
}

const fn slot(i: usize) -> usize {
    208 + LIMITS.sheet() * i
}

/// A byte of key k of the complete sheet; of a fact; the depth of an element.
const fn key(k: usize, byte: usize) -> usize {
    slot(1) + 16 + 8 * k + byte
}

const fn fact(k: usize, byte: usize) -> usize {
    key(LIMITS.keys + k, byte)
}

const fn depth(e: usize) -> usize {
    fact(LIMITS.facts, e)
}

/// A key or fact with its arguments.
fn entry(kind: u8, symbol: u8, arguments: &[u8]) -> u64 {
    let over = arguments.iter().enumerate().map(|(i, &e)| argument(i, e));
    head(kind, symbol, arguments.len() as u8) | over.sum::<u64>()
}

/// The book, and the pool: sheet 0 complete in slot 1, with a key of every kind, an argument at every
/// place and an element that no key yields; sheet 6 bounded in slot 2, empty.
pub fn base() -> (Vec<u8>, Vec<u8>) {
    let draft = Draft {
        constants: 2,
        functions: vec![1, 4],
        relations: vec![2, 1],
        constant_witnesses: 1,
        witnesses: vec![1],
        sequents: vec![Sequent::default(), Sequent::default()],
    };
    let keys = vec![
        entry(1, 0, &[]),
        entry(1, 1, &[]) | 1,
        entry(2, 0, &[0]) | 2,
        entry(2, 1, &[0, 1, 2, 0]) | 3,
        entry(3, 0, &[]) | 4,
        entry(4, 0, &[3]) | 5,
    ];
    let facts = [entry(0, 0, &[0, 1]), entry(0, 0, &[0, 2]), entry(0, 0, &[1, 0])];
    let facts = facts.into_iter().chain([entry(0, 1, &[5])]).collect();
    let depths = vec![(0, 0), (1, 0), (2, 1), (3, 2), (4, 0), (5, 3)];
    let full = PlainSheet { number: 0, place: 1, created: 7, keys, facts, depths };
    let (first, empty) = (PlainSheet::default(), PlainSheet { number: 6, ..Default::default() });
    let lists = [vec![first], vec![full], vec![empty]];
    let header = Header { scheduler: 0, strategy: 1, next: 7 };
    let mut pool = pool_bytes(&PlainPool { lists }, header, SLOTS, LIMITS);
    pool[12] = 0;
    (draft.bytes(), pool)
}

/// All changes.
pub fn edges() -> Vec<Edge> {
    let mut all = vec![edge("as it is", &[], 0)];
    all.extend(heads());
    all.extend(lists());
    all.extend(slots());
    all.extend(counts());
    all.extend(entries());
    all.extend(arguments());
    all.extend(depths());
    all
}

fn heads() -> Vec<Edge> {
    let mut all = vec![
        edge("scheduler 1", &[(5, 1)], 0),
        edge("scheduler 2", &[(5, 2)], 13),
        edge("strategy 2", &[(6, 2)], 13),
        edge("next number that of a sheet", &[(8, 6)], 13),
        edge("next number 65,535", &[(8, 255), (9, 255)], 0),
        edge("next number 65,536", &[(8, 0), (10, 1)], 0),
        edge("next number 65,537", &[(8, 1), (10, 1)], 13),
        edge("next number over 16,777,216", &[(11, 1)], 13),
        edge("place among the sequents", &[(slot(1) + 2, 0)], 0),
        edge("place behind the sequents", &[(slot(1) + 2, 2)], 13),
        edge("place 257", &[(slot(1) + 3, 1)], 13),
        edge("Linear, place 1", &[(6, 0)], 13),
        edge("Linear, place 0", &[(6, 0), (slot(1) + 2, 0)], 0),
    ];
    for (at, byte) in [(0, 78), (1, 69), (2, 77), (3, 0), (3, 2), (4, 1), (7, 1), (15, 1)] {
        all.push(edge(&format!("byte {at} of the head is {byte}"), &[(at, byte)], 13));
    }
    all
}

fn lists() -> Vec<Edge> {
    let mut all = vec![
        edge("slot twice in a list", &[(13, 2), (81, 1)], 13),
        edge("slot in two lists", &[(14, 2), (145, 1)], 13),
        edge("slot in two lists, one waiting", &[(12, 1), (16, 2)], 13),
        edge("a third sheet, waiting", &[(12, 1), (16, 3), (slot(3), 1)], 0),
        edge("a third sheet, complete", &[(13, 2), (81, 3), (slot(3), 1)], 0),
        edge("a third sheet, bounded", &[(14, 2), (145, 3), (slot(3), 1)], 0),
        edge("a third sheet with the number of the first", &[(12, 1), (16, 3)], 13),
        edge("a third sheet before it with its number", &[(12, 1)], 13),
        edge("a third sheet before it", &[(12, 1), (slot(0), 1)], 0),
    ];
    for (list, (first, held)) in [(16, 0), (80, 1), (144, 1)].into_iter().enumerate() {
        for slot in [SLOTS as u8, 64, 255] {
            let bytes = [(12 + list, held + 1), (first + held as usize, slot)];
            all.push(edge(&format!("list {list} names slot {slot}"), &bytes, 13));
        }
        for count in [65, 255] {
            all.push(edge(&format!("list {list} of {count}"), &[(12 + list, count)], 13));
        }
        for at in [first + held as usize, first + 63] {
            all.push(edge(&format!("byte {at} behind list {list}"), &[(at, 1)], 13));
        }
    }
    all
}

fn slots() -> Vec<Edge> {
    let mut all = vec![
        edge("sheet that no list names", &[(14, 0), (144, 0)], 13),
        edge("number of another sheet", &[(slot(2), 0)], 13),
        edge("number below the next", &[(slot(2), 5)], 0),
        edge("number that is the next", &[(slot(2), 7)], 13),
        edge("number 262", &[(slot(2) + 1, 1)], 13),
    ];
    for free in [0, 3] {
        for byte in [0, 1, 16, LIMITS.sheet() - 1] {
            let name = format!("byte {byte} of slot {free}, which is free");
            all.push(edge(&name, &[(slot(free) + byte, 1)], 13));
        }
    }
    all
}

fn counts() -> Vec<Edge> {
    let at = |byte: usize| slot(1) + byte;
    let mut all = vec![
        edge("created no more than are used", &[(at(4), 6)], 0),
        edge("created fewer than are used", &[(at(4), 5)], 13),
        edge("64 created", &[(at(4), 64)], 0),
        edge("65 created", &[(at(4), 65)], 13),
        edge("263 created", &[(at(5), 1)], 13),
        edge("a key behind the last", &[(at(6), 5)], 13),
        edge("a key that is zero", &[(at(6), 7)], 13),
        edge("129 keys", &[(at(6), 129)], 13),
        edge("262 keys", &[(at(7), 1)], 13),
        edge("a fact behind the last", &[(at(8), 3)], 13),
        edge("a fact that is zero", &[(at(8), 5)], 13),
        edge("129 facts", &[(at(8), 129)], 13),
        edge("260 facts", &[(at(9), 1)], 13),
    ];
    for byte in 10..16 {
        all.push(edge(&format!("byte {byte} of a sheet"), &[(at(byte), 1)], 13));
    }
    let tails = [key(6, 0), fact(0, 0) - 1, fact(4, 0), depth(0) - 1, depth(7), depth(63)];
    for tail in tails {
        let name = format!("byte {} of a sheet, unused", tail - slot(1));
        all.push(edge(&name, &[(tail, 1)], 13));
    }
    all
}

fn entries() -> Vec<Edge> {
    // A symbol that is not declared, with as many arguments as the number behind the arities says,
    // and with none; depths are right.
    let function = |n: u8, deep: u8| {
        let arguments = (n..4).map(|i| (key(3, 3 + i as usize), 0));
        let depths = [(depth(3), deep), (depth(5), deep + 1)];
        [(key(3, 1), 2), (key(3, 2), n)].into_iter().chain(arguments).chain(depths).collect()
    };
    let [two, none]: [Vec<(usize, u8)>; 2] = [function(2, 1), function(0, 0)];
    let witness = [(key(5, 1), 1), (key(5, 2), 0), (key(5, 3), 0), (depth(5), 0)];
    let relation = [(fact(3, 1), 2), (fact(3, 2), 0), (fact(3, 3), 0)];
    let mut all = vec![
        edge("key of kind 0", &[(key(0, 0), 0)], 13),
        edge("key of kind 5", &[(key(5, 0), 5)], 13),
        edge("constant that is not declared", &[(key(1, 1), 2)], 13),
        edge("function that is not declared", &[(key(3, 1), 2)], 13),
        edge("constant witness that is not declared", &[(key(4, 1), 1)], 13),
        edge("function witness that is not declared", &[(key(5, 1), 1)], 13),
        edge("relation that is not declared", &[(fact(3, 1), 2)], 13),
        edge("function 2 with two arguments", &two, 13),
        edge("function 2 without arguments", &none, 13),
        edge("function witness 1 with two arguments", &[(key(5, 1), 1), (key(5, 2), 2)], 13),
        edge("function witness 1 without arguments", &witness, 13),
        edge("relation 2 without arguments", &relation, 13),
        edge("fact of kind 1", &[(fact(3, 0), 1)], 13),
        edge("fact with a value", &[(fact(3, 7), 1)], 13),
        edge("value that is not created", &[(key(5, 7), 7)], 13),
        edge("value 255", &[(key(5, 7), 255)], 13),
        edge("another value", &[(key(1, 7), 0)], 13),
        edge("key as the one before it", &[(key(1, 1), 0)], 13),
        edge("fact as the one before it", &[(fact(1, 4), 1)], 13),
        edge("fact below the one before it", &[(fact(2, 3), 0)], 13),
        edge("fact above the one before it", &[(fact(2, 4), 1)], 0),
    ];
    for (k, arity) in [(0, 0u8), (2, 1), (3, 4), (4, 0), (5, 1)] {
        for other in [arity + 1, arity.wrapping_sub(1)] {
            let name = format!("key {k} with arity {other}");
            all.push(edge(&name, &[(key(k, 2), other)], 13));
        }
    }
    for (k, other) in [(0, 1), (0, 3), (3, 0), (3, 2)] {
        all.push(edge(&format!("fact {k} with arity {other}"), &[(fact(k, 2), other)], 13));
    }
    all
}

fn arguments() -> Vec<Edge> {
    let mut all = Vec::new();
    for byte in 3..7 {
        all.push(edge(&format!("argument byte {byte} of a constant"), &[(key(0, byte), 1)], 13));
    }
    for byte in 4..7 {
        all.push(edge(&format!("unused byte {byte} of a key"), &[(key(2, byte), 1)], 13));
        all.push(edge(&format!("unused byte {byte} of a fact"), &[(fact(3, byte), 1)], 13));
    }
    // 6 is below the created count and no key yields it; 7 is not created.
    for other in [6, 7, 255] {
        for byte in 3..7 {
            let name = format!("argument {byte} of a key is {other}");
            all.push(edge(&name, &[(key(3, byte), other)], 13));
        }
        for at in [fact(2, 3), fact(2, 4), fact(3, 3)] {
            let name = format!("argument of a fact is {other}, byte {}", at - slot(1));
            all.push(edge(&name, &[(at, other)], 13));
        }
    }
    all
}

fn depths() -> Vec<Edge> {
    let mut all = vec![
        edge("depth of an element that is in circles alone", &[(key(2, 3), 2)], 13),
        edge("circle with its depth", &[(key(2, 3), 2), (depth(2), 2)], 13),
        edge("depth 255", &[(depth(5), 255)], 13),
        edge("created to 64, and the last has a depth", &[(slot(1) + 4, 64), (depth(63), 1)], 13),
    ];
    for (e, deep) in [0u8, 0, 1, 2, 0, 3].into_iter().enumerate() {
        all.push(edge(&format!("depth of {e} too great"), &[(depth(e), deep + 1)], 13));
        if deep > 0 {
            all.push(edge(&format!("depth of {e} too small"), &[(depth(e), deep - 1)], 13));
        }
    }
    all.push(edge("depth of an element merged away", &[(depth(6), 1)], 13));
    for byte in [3, 4, 5, 6] {
        // Over the deepest argument alone, wherever it stands, the key's element has depth 2.
        let mut bytes: Vec<(usize, u8)> = (3..7).map(|other| (key(3, other), 0)).collect();
        bytes.push((key(3, byte), 2));
        all.push(edge(&format!("deepest argument at byte {byte}"), &bytes, 0));
    }
    all
}
