//! Writes steps that merge down, for what merging costs (tests/calls/merging): for each a line that
//! says what it is, and the book and the pool before and after the step, as tests/recorded has them.
//!
//! A line: `step PAIRS KEYS FACTS KEYS-FILED FACTS-FILED PASSES LOWERED LIVING WHAT`. FILED is the sum
//! over the pairs of what there is when they are merged; LOWERED are the keys that a pass of lowering
//! goes over. The reference makes the step, and tells these numbers.

use compare::chains::{along, down, into_one, waiting, with};
use compare::corners::{a, application, b, constant, f, rule, same, sheet};
use compare::judge::sparse;
use compare::recorded::hex;
use generator::draft::{Draft, Term};
use reference::book::{argument, head};
use reference::calls::step_with;
use reference::child::Bound;
use reference::plain::PlainSheet;
use reference::watch::Watch;
use reference::VERSION_1;

/// What the reference tells of the merges of a step.
#[derive(Default)]
struct Told {
    pairs: usize,
    filed: (usize, usize),
    passes: usize,
    lowered: usize,
    living: usize,
}

impl Watch for Told {
    fn merged(&mut self, keys: usize, facts: usize) {
        self.pairs += 1;
        self.filed = (self.filed.0 + keys, self.filed.1 + facts);
    }

    fn lowering_done(&mut self, passes: usize, keys: usize, living: usize) {
        (self.passes, self.lowered, self.living) = (self.passes + passes, keys, living);
    }
}

/// Constants, functions and relations of one, two and four arguments; and one identity.
fn book(left: Term, right: Term) -> Vec<u8> {
    let sequents = vec![rule(0, vec![], vec![vec![same(left, right)]])];
    let (functions, relations) = (vec![1, 2, 4], vec![1, 2, 4]);
    Draft { constants: 64, functions, relations, sequents, ..Default::default() }.bytes()
}

/// A step to be made: one identity on one sheet.
struct Case {
    what: String,
    sides: (Term, Term),
    start: PlainSheet,
}

impl Case {
    fn new(what: &str, sides: (Term, Term), start: PlainSheet) -> Self {
        Case { what: what.to_string(), sides, start }
    }
}

/// Sixteen elements become one by f, where so many other keys and facts stay in their places:
/// constants of other elements and f over these; facts over twelve of them.
fn staying(others: u8, facts: usize) -> Case {
    let constants = (1..=others.min(63)).map(|c| constant(c, 16 + (c as u64 - 1) % 48));
    let chain = (0..15).map(|e| application(e, e as u64 + 1));
    let more = (16..16 + others.saturating_sub(63)).map(|e| application(e, e as u64));
    let keys = [constant(0, 0)].into_iter().chain(constants).chain(chain).chain(more);
    let facts: Vec<u64> = (0..facts).map(|i| entry(0, 16 + i / 12, 16 + i % 12)).collect();
    let start = sheet(64, &keys.collect::<Vec<u64>>(), &facts);
    Case::new("16 elements into one, the rest stays", (a(), f(a())), start)
}

/// A fact (kind 0) or a key (2), its symbol 1, over two elements.
fn entry(kind: u8, first: usize, second: usize) -> u64 {
    head(kind, 1, 2) | argument(0, first as u8) | argument(1, second as u8)
}

/// One pair, elements 0 and 63 of 64 constants, where of so many further keys and facts half pass
/// the other half: those over 63 go before those over 1.
fn passing(keys: usize, facts: usize) -> Case {
    let halves = |kind: u8, count: usize| {
        let half = |first: usize| (0..count / 2).map(move |i| entry(kind, first, i));
        half(1).chain(half(63)).collect::<Vec<u64>>()
    };
    let start = sheet(64, &with(&named(), halves(2, keys)), &halves(0, facts));
    Case::new("one pair, half passes half", (a(), b()), start)
}

/// 64 constants, whose first two are elements 0 and 63.
fn named() -> Vec<u64> {
    (0..64).map(|c| constant(c, if c % 62 == 1 { 64 - c as u64 } else { c as u64 })).collect()
}

/// One pair, 0 and 63, where so many further keys and facts over four elements have 63 at every
/// choice of their places but all four: fifteen rows, which pass through one another.
fn crossing(keys: usize, facts: usize) -> Case {
    let rows = |kind: u8, count: usize| {
        let place = |ways: usize, i: usize, row: usize| {
            argument(i, if ways >> i & 1 == 1 { 63 } else { 1 + row as u8 })
        };
        let over = |ways: usize, row: usize| {
            (0..4).fold(head(kind, 2, 4), |entry, i| entry | place(ways, i, row))
        };
        let mut rows: Vec<u64> = (0..count).map(|e| over(e % 15, e / 15)).collect();
        rows.sort_unstable();
        rows
    };
    let start = sheet(64, &with(&named(), rows(2, keys)), &rows(0, facts));
    Case::new("one pair, fifteen rows pass through one another", (a(), b()), start)
}

/// Depths that fall one after another, a pass for each.
fn falling(last: u8) -> Case {
    let start = sheet(last as usize + 1, &with(&[constant(0, last as u64)], down(last)), &[]);
    Case::new("depths fall against the order of keys", (f(a()), b()), start)
}

fn cases() -> Vec<Case> {
    let mut cases = Vec::new();
    cases.extend([0, 16, 48, 80, 111].map(|others| staying(others, 0)));
    cases.extend([0, 16, 32, 64, 96, 128].map(|facts| staying(12, facts)));
    cases.extend([0, 16, 32, 64].map(|keys| passing(keys, 0)));
    cases.extend([16, 32, 64, 96, 128].map(|facts| passing(0, facts)));
    cases.extend([15, 30, 60].map(|keys| crossing(keys, 0)));
    cases.extend([15, 30, 60, 120].map(|facts| crossing(0, facts)));
    cases.extend([15, 31, 47].map(falling));
    let chains = into_one().into_iter().chain(along());
    cases.extend(chains.map(|chain| Case::new(chain.what, chain.sides, chain.start)));
    cases
}

fn main() {
    for Case { what, sides: (left, right), start } in cases() {
        let (book, mut pool) = (book(left, right), waiting(&start, 0));
        println!("book {}\n{}", hex(&book), sparse(&pool));
        let mut told = Told::default();
        let answer =
            step_with(&VERSION_1, &book, &mut pool, Bound { kind: 0, number: 0 }, &mut told);
        assert_eq!(answer, 0, "{what}: the step is refused");
        assert!(told.passes <= told.living, "{what}: more passes than elements");
        println!("{}", sparse(&pool));
        let Told { pairs, filed, passes, lowered, living } = told;
        let (keys, facts) = (start.keys.len(), start.facts.len());
        let filed = format!("{} {}", filed.0, filed.1);
        println!("step {pairs} {keys} {facts} {filed} {passes} {lowered} {living} {what}");
    }
}
