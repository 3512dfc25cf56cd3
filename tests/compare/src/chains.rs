//! Chains of merges and of lowered depths, each made by one identity on one waiting sheet.

use crate::corners::{a, application, b, constant, f, held, rule, same, sheet};
use generator::draft::{Draft, Sequent, Term};
use generator::pools::{pool_bytes, Header};
use reference::book::{argument, head};
use reference::plain::{PlainPool, PlainSheet};
use reference::VERSION_1;

/// A pool whose one sheet waits, and a slot that is free.
pub fn waiting(sheet: &PlainSheet, scheduler: u8) -> Vec<u8> {
    let pool = PlainPool { lists: [vec![sheet.clone()], vec![], vec![]] };
    pool_bytes(&pool, Header { scheduler, strategy: 0, next: 1 }, 2, &VERSION_1)
}

/// Constants, f, P of one argument and T of two; and one identity.
pub fn book(left: Term, right: Term) -> Vec<u8> {
    book_over(vec![1], left, right)
}

/// The same with functions of so many arguments.
pub fn book_over(functions: Vec<u16>, left: Term, right: Term) -> Vec<u8> {
    let sequents: Vec<Sequent> = vec![rule(0, vec![], vec![vec![same(left, right)]])];
    let relations = vec![1, 2];
    Draft { constants: 64, functions, relations, sequents, ..Default::default() }.bytes()
}

/// The start of a case of merging, and the keys and facts after it.
pub struct Chain {
    pub what: &'static str,
    pub sides: (Term, Term),
    pub start: PlainSheet,
    pub keys: Vec<u64>,
    pub facts: Vec<u64>,
}

pub fn up() -> Vec<u64> {
    (0..63).map(|e| application(e, e as u64 + 1)).collect()
}

/// f(1) = 0, f(2) = 1 and so on: each key is over the element that the next key yields.
pub fn down(last: u8) -> Vec<u64> {
    (1..=last).map(|e| application(e, e as u64 - 1)).collect()
}

pub fn with(first: &[u64], rest: Vec<u64>) -> Vec<u64> {
    first.iter().copied().chain(rest).collect()
}

/// Chains in which one identity makes all elements one.
pub fn into_one() -> Vec<Chain> {
    let all: Vec<u64> = (0..64).map(|e| held(0, e)).collect();
    let pair = |x: u8, y: u8| head(0, 1, 2) | argument(0, x) | argument(1, y);
    let pairs: Vec<u64> = (0..128).map(|i| pair((i / 64) as u8, (i % 64) as u8)).collect();
    let constants =
        |value: fn(u8) -> u64| (0..64).map(|c| constant(c, value(c))).collect::<Vec<_>>();
    vec![
        Chain {
            what: "64 elements into one, smaller before greater",
            sides: (a(), f(a())),
            start: sheet(64, &with(&[constant(0, 0)], up()), &all),
            keys: vec![constant(0, 0), application(0, 0)],
            facts: vec![held(0, 0)],
        },
        Chain {
            what: "64 elements into one, greater before smaller",
            sides: (f(a()), a()),
            start: sheet(64, &with(&[constant(0, 63)], down(63)), &all),
            keys: vec![constant(0, 0), application(0, 0)],
            facts: vec![held(0, 0)],
        },
        Chain {
            what: "64 elements into one, 127 keys and 128 facts",
            sides: (a(), f(a())),
            start: sheet(64, &with(&constants(|c| c as u64), up()), &pairs),
            keys: with(&constants(|_| 0), vec![application(0, 0)]),
            facts: vec![pair(0, 0)],
        },
        Chain {
            what: "64 elements into one by the ends of a chain and its first link",
            sides: (b(), f(b())),
            start: sheet(64, &with(&[constant(0, 0), constant(1, 0)], up()), &[]),
            keys: vec![constant(0, 0), constant(1, 0), application(0, 0)],
            facts: vec![],
        },
    ]
}

/// Two chains that become one, and depths that fall all along a chain.
pub fn along() -> Vec<Chain> {
    let ladder = |e: u8| application(e, e as u64 + 2);
    let odd: Vec<u64> = (0..32).map(|e| held(0, 2 * e + 1)).collect();
    vec![
        Chain {
            what: "two chains of 32 elements",
            sides: (a(), b()),
            start: sheet(
                64,
                &with(&[constant(0, 0), constant(1, 1)], (0..62).map(ladder).collect()),
                &odd,
            ),
            keys: with(&[constant(0, 0), constant(1, 0)], (0..31).map(|e| ladder(2 * e)).collect()),
            facts: (0..32).map(|e| held(0, 2 * e)).collect(),
        },
        Chain {
            what: "depths fall along a chain, key by key",
            sides: (f(a()), b()),
            start: sheet(63, &with(&[constant(0, 0)], up()[..62].to_vec()), &[]),
            keys: with(&[constant(0, 0), constant(1, 1)], up()[..62].to_vec()),
            facts: vec![],
        },
        Chain {
            what: "depths fall along a chain, against the order of keys",
            sides: (f(a()), b()),
            start: sheet(63, &with(&[constant(0, 62)], down(62)), &[]),
            keys: with(&[constant(0, 62), constant(1, 61)], down(62)),
            facts: vec![],
        },
    ]
}
