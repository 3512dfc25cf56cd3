//! The corners of document 01 as one table, for any engine that steps: a book, the sheet to start
//! from, and the whole state after one step, as plain text.

use crate::published::{Peer, Start};
use generator::draft::*;
use generator::pools::depths;
use reference::book::{argument, head};
use reference::plain::{PlainPool, PlainSheet};

/// One corner.
pub struct Corner {
    pub name: &'static str,
    pub draft: Draft,
    pub start: PlainSheet,
    pub scheduler: u32,
    pub bound: (u32, u32),
    pub after: &'static str,
}

fn var(v: u16) -> Term {
    Term::Variable(v)
}

pub fn a() -> Term {
    Term::Constant(0)
}

pub fn b() -> Term {
    Term::Constant(1)
}

pub fn f(term: Term) -> Term {
    Term::Application(0, vec![term])
}

pub fn fact(relation: u16, term: Term) -> Literal {
    Literal::Fact(relation, vec![term])
}

pub fn same(left: Term, right: Term) -> Literal {
    Literal::Identity(left, right)
}

pub fn rule(free: u16, body: Vec<Literal>, head: Vec<Vec<Literal>>) -> Sequent {
    let head = head.into_iter().map(|literals| Disjunct { origins: vec![], literals }).collect();
    Sequent { free, body, head }
}

/// "[] gives some x ..": one disjunct with constant witness 0.
fn some(literals: Vec<Literal>) -> Sequent {
    let origins = vec![Origin { kind: 0, witness: 0, arguments: vec![] }];
    Sequent { free: 0, body: vec![], head: vec![Disjunct { origins, literals }] }
}

/// Constants a, b; f of one argument; relations P, R, S of one; one constant witness.
fn book(sequent: Sequent) -> Draft {
    Draft {
        constants: 2,
        functions: vec![1],
        relations: vec![1, 1, 1],
        constant_witnesses: 1,
        witnesses: vec![],
        sequents: vec![sequent],
    }
}

pub fn constant(symbol: u8, value: u64) -> u64 {
    head(1, symbol, 0) | value
}

pub fn application(element: u8, value: u64) -> u64 {
    head(2, 0, 1) | argument(0, element) | value
}

pub fn held(relation: u8, element: u8) -> u64 {
    head(0, relation, 1) | argument(0, element)
}

/// A sheet of these keys and facts, with the depths that its keys give.
pub fn sheet(created: usize, keys: &[u64], facts: &[u64]) -> PlainSheet {
    let depths = depths(keys).expect("a sheet with names");
    let (keys, facts) = (keys.to_vec(), facts.to_vec());
    PlainSheet { number: 0, place: 0, created, keys, facts, depths }
}

fn corner(
    name: &'static str,
    sequent: Sequent,
    start: PlainSheet,
    bound: (u32, u32),
    after: &'static str,
) -> Corner {
    Corner { name, draft: book(sequent), start, scheduler: 0, bound, after }
}

/// The corners over the empty model.
fn empty_corners() -> Vec<Corner> {
    let empty = || sheet(0, &[], &[]);
    let two = || rule(0, vec![], vec![vec![fact(1, f(a()))]]);
    let bare = "bounded 1 place 0 created 0\n";
    let both = "waiting 1 place 0 created 2\nkey 1 0 = 0\nkey 2 0 0 = 1\ndepth 0 0\n\
             depth 1 1\nfact 1 1\n";
    let witness = "waiting 1 place 0 created 1\nkey 3 0 = 0\ndepth 0 0\n";
    vec![
        corner(
            "empty rule, one variable",
            rule(1, vec![], vec![]),
            empty(),
            (0, 0),
            "complete 0 place 0 created 0\n",
        ),
        corner("empty rule, no variable", rule(0, vec![], vec![]), empty(), (0, 0), ""),
        corner("v = v, DomainSize 1", some(vec![]), empty(), (1, 1), bare),
        corner("v = v, DomainSize 2", some(vec![]), empty(), (1, 2), witness),
        corner("R(f(a)), DomainSize 1", two(), empty(), (1, 1), both),
        corner("R(f(a)), Depth 0 Pure", two(), empty(), (2, 0), bare),
        corner("R(f(a)), Depth 0 Reuse", two(), empty(), (3, 0), bare),
        corner("R(f(a)), Depth 1 Pure", two(), empty(), (2, 1), both),
        corner("R(f(a)), Depth 1 Reuse", two(), empty(), (3, 1), both),
    ]
}

/// The corners of merging.
fn merge_corners() -> Vec<Corner> {
    let joined = || {
        rule(
            2,
            vec![fact(1, var(0)), fact(2, var(1))],
            vec![vec![same(var(0), var(1)), fact(0, var(1))]],
        )
    };
    let apart = || sheet(2, &[constant(0, 0), constant(1, 1)], &[held(1, 0), held(2, 1)]);
    let twins = sheet(
        4,
        &[constant(0, 0), constant(1, 1), application(0, 2), application(1, 3)],
        &[held(0, 3)],
    );
    let chain = sheet(3, &[constant(0, 0), application(0, 1), application(1, 2)], &[]);
    let loops = sheet(2, &[constant(0, 0), application(0, 1)], &[]);
    let equal = |left, right| rule(0, vec![], vec![vec![same(left, right)]]);
    vec![
        corner("a = f(a)", equal(a(), f(a())), loops, (0, 0),
            "waiting 1 place 0 created 2\nkey 1 0 = 0\nkey 2 0 0 = 0\ndepth 0 0\n"),
        corner("a = b, congruent", equal(a(), b()), twins, (0, 0),
            "waiting 1 place 0 created 4\nkey 1 0 = 0\nkey 1 1 = 0\nkey 2 0 0 = 2\n\
             depth 0 0\ndepth 2 1\nfact 0 2\n"),
        corner("merged away, DomainSize 1", joined(), apart(), (1, 1),
            "bounded 1 place 0 created 2\nkey 1 0 = 0\nkey 1 1 = 0\ndepth 0 0\nfact 1 0\nfact 2 0\n"),
        corner("merged away, DomainSize 2", joined(), apart(), (1, 2),
            "waiting 1 place 0 created 2\nkey 1 0 = 0\nkey 1 1 = 0\ndepth 0 0\n\
             fact 0 0\nfact 1 0\nfact 2 0\n"),
        corner("f(a) = b lowers depths", equal(f(a()), b()), chain, (0, 0),
            "waiting 1 place 0 created 4\nkey 1 0 = 0\nkey 1 1 = 1\nkey 2 0 0 = 1\n\
             key 2 0 1 = 2\ndepth 0 0\ndepth 1 0\ndepth 2 1\n"),
    ]
}

/// The corners of depth over an element merged away: the survivor's depth counts.
fn depth_corners() -> Vec<Corner> {
    let body = || vec![fact(1, var(0)), fact(2, var(1))];
    let joined = |last: Term| rule(2, body(), vec![vec![same(var(0), var(1)), fact(0, last)]]);
    let deep = || {
        let keys = [constant(0, 0), application(0, 1), application(1, 2)];
        sheet(3, &keys, &[held(1, 1), held(2, 2)])
    };
    let without = "bounded 1 place 0 created 3\nkey 1 0 = 0\nkey 2 0 0 = 1\nkey 2 0 1 = 1\n\
                   depth 0 0\ndepth 1 1\nfact 1 1\nfact 2 1\n";
    let with = "waiting 1 place 0 created 3\nkey 1 0 = 0\nkey 2 0 0 = 1\nkey 2 0 1 = 1\n\
                depth 0 0\ndepth 1 1\nfact 0 1\nfact 1 1\nfact 2 1\n";
    vec![
        corner("merged away, Depth 0", joined(var(1)), deep(), (2, 0), without),
        corner("merged away, Depth 1", joined(var(1)), deep(), (2, 1), with),
        corner("f over merged away, Depth 1", joined(f(var(1))), deep(), (3, 1), without),
        corner("f over merged away, Depth 2", joined(f(var(1))), deep(), (3, 2), with),
    ]
}

/// The corners of firing and of the two schedulers.
fn other_corners() -> Vec<Corner> {
    let branches = || rule(0, vec![], vec![vec![fact(0, a())], vec![fact(1, a())]]);
    let empty = || sheet(0, &[], &[]);
    let one = "waiting 1 place 0 created 1\nkey 1 0 = 0\ndepth 0 0\nfact 0 0\n";
    let fifo = "waiting 1 place 0 created 1\nkey 1 0 = 0\ndepth 0 0\nfact 0 0\n\
             waiting 2 place 0 created 1\nkey 1 0 = 0\ndepth 0 0\nfact 1 0\n";
    let lifo = "waiting 2 place 0 created 1\nkey 1 0 = 0\ndepth 0 0\nfact 1 0\n\
             waiting 1 place 0 created 1\nkey 1 0 = 0\ndepth 0 0\nfact 0 0\n";
    let fires = "waiting 1 place 0 created 2\nkey 1 0 = 0\nkey 3 0 = 1\ndepth 0 0\n\
             depth 1 0\nfact 0 0\nfact 0 1\n";
    let mut last = corner("two children, LIFO", branches(), empty(), (0, 0), lifo);
    last.scheduler = 1;
    vec![
        corner(
            "P(a) held, some x P(x)",
            some(vec![fact(0, var(0))]),
            sheet(1, &[constant(0, 0)], &[held(0, 0)]),
            (0, 0),
            fires,
        ),
        corner(
            "a = a counts a twice",
            rule(0, vec![], vec![vec![same(a(), a())]]),
            empty(),
            (1, 1),
            "bounded 1 place 0 created 0\n",
        ),
        corner("one child", rule(0, vec![], vec![vec![fact(0, a())]]), empty(), (0, 0), one),
        corner("two children, FIFO", branches(), empty(), (0, 0), fifo),
        last,
    ]
}

pub fn corners() -> Vec<Corner> {
    let mut all = empty_corners();
    all.extend(merge_corners());
    all.extend(depth_corners());
    all.extend(other_corners());
    all
}

/// Steps every corner once on `peer`; says which ones come out otherwise.
pub fn wrong(peer: &dyn Peer) -> Vec<String> {
    let mut wrong = Vec::new();
    for corner in corners() {
        let book = corner.draft.bytes();
        let waiting = PlainPool { lists: [vec![corner.start.clone()], vec![], vec![]] };
        let resumed = Some((&waiting, 1));
        let start = Start { book: &book, scheduler: corner.scheduler, strategy: 0, resumed };
        peer.run(&start, &mut |stepper| {
            stepper.step(corner.bound.0, corner.bound.1);
            let found = stepper.state().text();
            if found != corner.after {
                wrong.push(format!("{}: wanted\n{}found\n{found}", corner.name, corner.after));
            }
        });
    }
    wrong
}
