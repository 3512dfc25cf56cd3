//! Steps and runs at the limits of a sheet, with budgets spent and not, where slots or model numbers
//! run out, and in each order of lists and sequents; with what stands in the pool after them.

use crate::cases::{Cases, FREE, MAX, SHEET};
use compare::corners::{a, application, b, constant, f, fact, held, rule, same, sheet};
use generator::draft::{Disjunct, Draft, Literal, Origin, Sequent, Term};
use generator::pools::{pool_bytes, Header};
use reference::book::{argument, head};
use reference::child::Bound;
use reference::plain::{PlainPool, PlainSheet};
use reference::VERSION_1;

pub fn write(cases: &mut Cases) {
    elements(cases);
    keys(cases);
    facts(cases);
    budgets(cases);
    arguments(cases);
    refusals(cases);
    numbers(cases);
    slots(cases);
    bounds(cases);
    orders(cases);
    places(cases);
    many_places(cases);
}

const fn size(number: u32) -> Bound {
    Bound { kind: 1, number }
}

const fn depth(number: u32) -> Bound {
    Bound { kind: 2, number }
}

/// Constants a, b and 62 more; two functions of one argument; relations P, R, S of one and T of two.
fn book(sequents: Vec<Sequent>) -> Vec<u8> {
    let (functions, relations) = (vec![1; 2], vec![1, 1, 1, 2]);
    let draft = Draft { constants: 64, functions, relations, sequents, ..Default::default() };
    draft.bytes()
}

/// "[] gives .. or ..".
fn gives(head: Vec<Vec<Literal>>) -> Sequent {
    rule(0, vec![], head)
}

fn p(term: Term) -> Literal {
    fact(0, term)
}

fn r(term: Term) -> Literal {
    fact(1, term)
}

fn s(term: Term) -> Literal {
    fact(2, term)
}

/// A pool whose one sheet waits in slot 0.
fn waiting(sheet: &PlainSheet, next: u32, slots: usize) -> Vec<u8> {
    let pool = PlainPool { lists: [vec![sheet.clone()], vec![], vec![]] };
    pool_bytes(&pool, Header { scheduler: 0, strategy: 0, next }, slots, &VERSION_1)
}

/// A sheet on which a->0 is all, and so many elements are created.
fn lone(created: usize) -> PlainSheet {
    sheet(created, &[constant(0, 0)], &[])
}

/// The text of one waiting sheet with number 1.
fn child(created: usize, keys: &[u64], facts: &[u64]) -> String {
    let child = PlainSheet { number: 1, ..sheet(created, keys, facts) };
    PlainPool { lists: [vec![child], vec![], vec![]] }.text()
}

fn elements(cases: &mut Cases) {
    let origins = vec![Origin { kind: 1, witness: 0, arguments: vec![0] }];
    let next = Disjunct { origins, literals: vec![p(Term::Variable(1))] };
    let sequents = vec![
        gives(vec![vec![p(a())]]),
        Sequent { free: 1, body: vec![p(Term::Variable(0))], head: vec![next] },
    ];
    let (relations, witnesses) = (vec![1], vec![1]);
    let draft = Draft { constants: 1, relations, witnesses, sequents, ..Default::default() };
    let (one_each, mut pool) = (draft.bytes(), vec![0; VERSION_1.pool(1)]);
    cases.open("an element for each step", &one_each, &mut pool, [0, 0], 0);
    cases.run("63 elements", &one_each, &mut pool, FREE, 63, (0, 63));
    cases.step("element 64", &one_each, &mut pool, FREE, 0);
    cases.step("element 65", &one_each, &mut pool, FREE, 15);
    cases.run("element 65", &one_each, &mut pool, FREE, MAX, (15, 0));
    cases.open("an element for each step, again", &one_each, &mut pool, [0, 0], 0);
    cases.run("64 elements and no more", &one_each, &mut pool, FREE, MAX, (15, 64));

    let [one, inner, sides] = [vec![p(b())], vec![p(f(b()))], vec![same(b(), Term::Constant(2))]]
        .map(|literals| book(vec![gives(vec![literals])]));
    let after = [
        child(64, &[constant(0, 0), constant(1, 63)], &[held(0, 63)]),
        child(64, &[constant(0, 0), constant(1, 62), application(62, 63)], &[held(0, 63)]),
        child(64, &[constant(0, 0), constant(1, 62), constant(2, 62)], &[]),
    ];
    let tried = [("one new term", one, 63), ("f(b), both new", inner, 62), ("b = c", sides, 62)];
    for ((what, book, most), after) in tried.into_iter().zip(after) {
        let mut pool = waiting(&lone(most), 1, 1);
        cases.step(&format!("{what}, {most} elements created"), &book, &mut pool, FREE, 0);
        cases.reads(what, &pool, &after);
        let mut pool = waiting(&lone(most + 1), 1, 1);
        cases.step(&format!("{what}, {} created", most + 1), &book, &mut pool, FREE, 15);
    }
}

/// 63 constants, and applications over their elements until there are so many keys.
fn many_keys(count: usize) -> Vec<u64> {
    let over = |i: usize| {
        let element = (i % 63) as u8;
        head(2, (i / 63) as u8, 1) | argument(0, element) | element as u64
    };
    (0..63).map(|c| constant(c, c as u64)).chain((0..count - 63).map(over)).collect()
}

fn keys(cases: &mut Cases) {
    let book = book(vec![gives(vec![vec![p(Term::Constant(63))]])]);
    let mut pool = waiting(&sheet(63, &many_keys(127), &[]), 1, 1);
    cases.step("key 128", &book, &mut pool, FREE, 0);
    let mut all = many_keys(127);
    all.insert(63, constant(63, 63));
    cases.reads("key 128", &pool, &child(64, &all, &[held(0, 63)]));
    let mut pool = waiting(&sheet(63, &many_keys(128), &[]), 1, 1);
    cases.step("key 129", &book, &mut pool, FREE, 15);
    cases.run("key 129", &book, &mut pool, FREE, 2, (15, 0));
}

fn both(left: u8, right: u8) -> u64 {
    head(0, 3, 2) | argument(0, left) | argument(1, right)
}

/// T over 0 and each element, then over 1 and each element, until there are so many facts.
fn many_facts(count: usize) -> PlainSheet {
    let keys: Vec<u64> = (0..64).map(|c| constant(c, c as u64)).collect();
    let facts: Vec<u64> = (0..count).map(|i| both((i / 64) as u8, (i % 64) as u8)).collect();
    sheet(64, &keys, &facts)
}

fn facts(cases: &mut Cases) {
    let told = |literals: Vec<Literal>| book(vec![gives(vec![literals])]);
    let mut pool = waiting(&many_facts(127), 1, 1);
    cases.step("fact 128", &told(vec![p(a())]), &mut pool, FREE, 0);
    let before = many_facts(127);
    let facts: Vec<u64> = std::iter::once(held(0, 0)).chain(before.facts).collect();
    cases.reads("fact 128", &pool, &child(64, &before.keys, &facts));

    // A fact that is held needs no room, and a fact behind a merge has the room that it made.
    let keys: Vec<u64> = (0..64).map(|c| constant(c, if c == 1 { 0 } else { c as u64 })).collect();
    let left = (0..64).filter(|&e| e != 1).map(|e| both(0, e));
    let merged: Vec<u64> = left.clone().collect();
    let with: Vec<u64> = std::iter::once(held(0, 0)).chain(left).collect();
    let (joined, held_there) = (same(a(), b()), Literal::Fact(3, vec![a(), a()]));
    let tried = [
        ("fact 129", vec![p(a())], None),
        ("fact 129, then a merge", vec![p(a()), joined.clone()], None),
        ("a merge, then one more fact than 128", vec![joined.clone(), p(a())], Some(with)),
        ("a fact held among 128, then a merge", vec![held_there, joined], Some(merged)),
    ];
    for (what, literals, after) in tried {
        let (book, mut pool) = (told(literals), waiting(&many_facts(128), 1, 1));
        cases.step(what, &book, &mut pool, FREE, if after.is_some() { 0 } else { 15 });
        if let Some(facts) = after {
            cases.reads(what, &pool, &child(64, &keys, &facts));
        }
    }
}

/// A budget that is spent stops before 14 to 17; one that is not does not.
fn budgets(cases: &mut Cases) {
    let (new, two) = (gives(vec![vec![p(b())]]), gives(vec![vec![p(a())], vec![r(a())]]));
    let empty = pool_bytes(
        &PlainPool::default(),
        Header { scheduler: 0, strategy: 0, next: 0 },
        1,
        &VERSION_1,
    );
    let tried = [
        ("nothing waits", vec![], empty, 14),
        ("no room for an element", vec![new], waiting(&lone(64), 1, 1), 15),
        ("no slot for a second child", vec![two.clone()], waiting(&lone(1), 1, 1), 16),
        ("no number", vec![two], waiting(&lone(1), 65_536, 2), 17),
    ];
    for (what, sequents, before, stop) in tried {
        let (book, mut pool) = (book(sequents), before.clone());
        for (budget, wanted) in [(0, 0), (1, stop), (MAX, stop)] {
            let name = format!("{what}, budget {budget}");
            cases.run(&name, &book, &mut pool, FREE, budget, (wanted, 0));
        }
        cases.step(what, &book, &mut pool, FREE, stop);
        cases.kept(what, &pool, &before);
    }
    let (book, mut pool) = (book(vec![]), vec![0; VERSION_1.pool(1)]);
    cases.open("a pool whose sheet is complete at once", &book, &mut pool, [0, 0], 0);
    cases.run("the last step spends the budget", &book, &mut pool, FREE, 1, (0, 1));
    cases.run("nothing waits any more, no budget", &book, &mut pool, FREE, 0, (0, 0));
    cases.run("nothing waits any more, budget 1", &book, &mut pool, FREE, 1, (14, 0));
}

/// Arguments are checked with budget 0 too, lower numbers first.
fn arguments(cases: &mut Cases) {
    let (good, number) = (book(vec![]), Bound { kind: 0, number: 1 });
    let mut pool = waiting(&lone(1), 1, 1);
    let mut unsound = pool.clone();
    unsound[7] = 1;
    let short = pool.len() - 1;
    cases.run("no budget, empty book", &[], &mut pool, number, 0, (2, 0));
    cases.run("no budget, short pool", &good, &mut pool[..short], number, 0, (11, 0));
    cases.run("no budget, Unbounded with 1", &good, &mut unsound, number, 0, (12, 0));
    cases.run("no budget, unsound pool", &good, &mut unsound, FREE, 0, (13, 0));
    cases.run("no budget", &good, &mut pool, FREE, 0, (0, 0));
    cases.step("Unbounded with 1, unsound pool", &good, &mut unsound, number, 12);
    cases.step("unsound pool", &good, &mut unsound, FREE, 13);
}

/// Of 15, 16 and 17 the lowest that holds is given.
fn refusals(cases: &mut Cases) {
    let [new, second, known] = [
        vec![vec![p(b())], vec![r(b())]],
        vec![vec![p(a())], vec![r(b())]],
        vec![vec![p(a())], vec![r(a())]],
    ]
    .map(|head| book(vec![gives(head)]));
    let tried = [
        ("15, 16 and 17 hold", &new, 65_536, 1, 15),
        ("15, 16 and 17 hold, 15 of the second child", &second, 65_536, 1, 15),
        ("15 and 16 hold", &new, 65_534, 1, 15),
        ("15 and 17 hold", &new, 65_536, 2, 15),
        ("16 and 17 hold", &known, 65_536, 1, 16),
        ("16 and 17 hold, a number is left", &known, 65_535, 1, 16),
        ("16 holds", &known, 65_534, 1, 16),
        ("17 holds", &known, 65_536, 2, 17),
        ("17 holds, a number is left", &known, 65_535, 2, 17),
        ("none holds", &known, 65_534, 2, 0),
    ];
    for (what, book, next, slots, wanted) in tried {
        let before = waiting(&lone(64), next, slots);
        let mut pool = before.clone();
        cases.step(what, book, &mut pool, FREE, wanted);
        match wanted {
            0 => cases.names(what, &pool, [&[0, 1], &[], &[]], 65_536),
            _ => cases.kept(what, &pool, &before),
        }
    }
    // What the bound admits is asked for room, also where another literal makes the child bounded;
    // what it cuts needs none.
    let cut = book(vec![gives(vec![vec![p(b()), Literal::Fact(3, vec![b(), f(b())])]])]);
    let mut pool = waiting(&lone(64), 1, 1);
    cases.step("15 of a child that the bound cuts later", &cut, &mut pool, size(2), 15);
    cases.step("no room, and the bound cuts all", &cut, &mut pool, size(1), 0);
    cases.names("no room, and the bound cuts all", &pool, [&[], &[], &[0]], 2);
}

fn numbers(cases: &mut Cases) {
    let on =
        book(vec![gives(vec![vec![p(a())]]), gives(vec![vec![r(a())]]), gives(vec![vec![s(a())]])]);
    let mut pool = waiting(&PlainSheet { number: 65_534, ..lone(1) }, 65_535, 1);
    cases.step("the last number, 65,535", &on, &mut pool, FREE, 0);
    let text = "waiting 65535 place 0 created 1\nkey 1 0 = 0\ndepth 0 0\nfact 0 0\n";
    cases.reads("the last number", &pool, text);
    cases.names("the last number", &pool, [&[0], &[], &[]], 65_536);
    cases.step("numbers used up", &on, &mut pool, FREE, 17);
    cases.run("numbers used up", &on, &mut pool, FREE, 9, (17, 0));
    let mut pool = waiting(&lone(1), 65_534, 1);
    cases.run("two numbers left, then none", &on, &mut pool, FREE, 9, (17, 2));

    let mut pool = waiting(&lone(1), 65_536, 1);
    cases.step("numbers used up, complete", &book(vec![]), &mut pool, FREE, 0);
    cases.names("numbers used up, complete", &pool, [&[], &[0], &[]], 65_536);
    let mut pool = waiting(&lone(1), 65_536, 1);
    cases.step("numbers used up, failed", &book(vec![gives(vec![])]), &mut pool, FREE, 0);
    cases.names("numbers used up, failed", &pool, [&[], &[], &[]], 65_536);
}

/// A pool with an empty sheet that waits in the middle one of three slots, the others free.
fn middle(scheduler: u8) -> Vec<u8> {
    let waits = PlainSheet { number: 5, ..Default::default() };
    let pool = PlainPool { lists: [vec![PlainSheet::default(), waits], vec![], vec![]] };
    let header = Header { scheduler, strategy: 0, next: 6 };
    let mut bytes = pool_bytes(&pool, header, 3, &VERSION_1);
    (bytes[12], bytes[16], bytes[17]) = (1, 1, 0);
    bytes
}

fn slots(cases: &mut Cases) {
    let children = |head: Vec<Literal>| {
        book(vec![gives(head.into_iter().map(|literal| vec![literal]).collect())])
    };
    let one = children(vec![p(a())]);
    let three = children(vec![p(a()), r(a()), s(a())]);
    let mut pool = waiting(&lone(1), 1, 1);
    cases.step("one slot, one child", &one, &mut pool, FREE, 0);
    cases.names("one slot, one child", &pool, [&[0], &[], &[]], 2);
    let mut pool = waiting(&lone(1), 1, 3);
    cases.step("the base's slot is the lowest", &three, &mut pool, FREE, 0);
    cases.names("the base's slot is the lowest", &pool, [&[0, 1, 2], &[], &[]], 4);
    for (scheduler, order) in [(0, [0, 1, 2]), (1, [2, 1, 0])] {
        let (mut pool, what) = (middle(scheduler), format!("slots in order, {scheduler}"));
        cases.step(&what, &three, &mut pool, FREE, 0);
        cases.names(&what, &pool, [&order, &[], &[]], 9);
    }
    let mut pool = middle(0);
    cases.step("one child, a slot below the base's free", &one, &mut pool, FREE, 0);
    cases.names("one child, a slot below the base's free", &pool, [&[0], &[], &[]], 7);

    // 64 slots, 63 of them taken by complete sheets.
    let others = (1..64).map(|number| PlainSheet { number, ..Default::default() }).collect();
    let lists = PlainPool { lists: [vec![lone(1)], others, vec![]] };
    let header = Header { scheduler: 0, strategy: 0, next: 64 };
    let mut pool = pool_bytes(&lists, header, 64, &VERSION_1);
    cases.step("64 slots taken, three children", &three, &mut pool, FREE, 16);
    cases.step("64 slots taken, one child", &one, &mut pool, FREE, 0);
    for _ in 0..2 {
        cases.take("64 slots taken", &one, &mut pool, 0, SHEET, 0);
    }
    let more = children(vec![p(b()), r(b()), s(b())]);
    cases.step("two slots free, three children", &more, &mut pool, FREE, 0);
    let all: Vec<u8> = (3..64).collect();
    cases.names("two slots free, three children", &pool, [&[0, 1, 2], &all, &[]], 68);
}

/// Each call has its own bound: a sheet goes on under another one.
fn bounds(cases: &mut Cases) {
    let x = || Term::Variable(0);
    let book = book(vec![gives(vec![vec![p(a())]]), rule(1, vec![p(x())], vec![vec![p(f(x()))]])]);
    let open = |cases: &mut Cases, what: &str| {
        let mut pool = vec![0; VERSION_1.pool(2)];
        cases.open(what, &book, &mut pool, [0, 0], 0);
        pool
    };
    let sheet = |standing: &str, number: u32, elements: u8| {
        let mut text = format!("{standing} {number} place 0 created {elements}\nkey 1 0 = 0\n");
        (1..elements).for_each(|e| text += &format!("key 2 0 {} = {e}\n", e - 1));
        (0..elements).for_each(|e| text += &format!("depth {e} {e}\n"));
        (0..elements).for_each(|e| text += &format!("fact 0 {e}\n"));
        text
    };
    let bound = |kind, number| Bound { kind, number };
    let tried = [
        (bound(1, 2), false),
        (bound(1, 3), true),
        (bound(2, 1), false),
        (bound(2, 2), true),
        (bound(3, 1), false),
        (bound(3, 2), true),
        (FREE, true),
    ];
    for (last, goes_on) in tried {
        let what = format!("bounds change, {} with {} last", last.kind, last.number);
        let mut pool = open(cases, &what);
        cases.step(&format!("{what}, first"), &book, &mut pool, depth(0), 0);
        cases.run(&format!("{what}, then"), &book, &mut pool, FREE, 1, (0, 1));
        cases.reads(&what, &pool, &sheet("waiting", 2, 2));
        cases.step(&what, &book, &mut pool, last, 0);
        let after = if goes_on { sheet("waiting", 3, 3) } else { sheet("bounded", 3, 2) };
        cases.reads(&what, &pool, &after);
    }
}

/// Two open children under each scheduler, and what steps next; a bounded child between open ones.
fn orders(cases: &mut Cases) {
    let x = || Term::Variable(0);
    let two = book(vec![
        gives(vec![vec![p(a())], vec![r(a())]]),
        rule(1, vec![p(x())], vec![vec![s(x())]]),
        rule(1, vec![r(x())], vec![vec![s(x())]]),
    ]);
    let line = |number: u32, facts: &[u8]| {
        let held: String = facts.iter().map(|relation| format!("fact {relation} 0\n")).collect();
        format!("waiting {number} place 0 created 1\nkey 1 0 = 0\ndepth 0 0\n{held}")
    };
    let after = [
        ("FIFO", line(1, &[0]) + &line(2, &[1]), line(2, &[1]) + &line(3, &[0, 2])),
        ("LIFO", line(2, &[1]) + &line(1, &[0]), line(3, &[1, 2]) + &line(1, &[0])),
    ];
    for (scheduler, (name, first, second)) in after.into_iter().enumerate() {
        let (mut pool, what) = (vec![0; VERSION_1.pool(3)], format!("two open children, {name}"));
        cases.open(&what, &two, &mut pool, [scheduler as u32, 0], 0);
        cases.step(&what, &two, &mut pool, FREE, 0);
        cases.reads(&what, &pool, &first);
        cases.step(&format!("{what}, the next"), &two, &mut pool, FREE, 0);
        cases.reads(&what, &pool, &second);
        cases.run(&format!("{what}, to the end"), &two, &mut pool, FREE, MAX, (14, 3));
        let order: [&[u8]; 2] = [&[0, 1], &[1, 0]];
        cases.names(&what, &pool, [&[], order[scheduler], &[]], 5);
    }
    let mixed = book(vec![gives(vec![vec![p(a())], vec![p(f(a()))], vec![r(a())]])]);
    for (scheduler, order) in [[0, 2], [2, 0]].into_iter().enumerate() {
        let what = format!("a bounded child between open ones, {scheduler}");
        let mut pool = vec![0; VERSION_1.pool(3)];
        cases.open(&what, &mixed, &mut pool, [scheduler as u32, 0], 0);
        cases.step(&what, &mixed, &mut pool, depth(0), 0);
        cases.names(&what, &pool, [&order, &[], &[1]], 4);
    }
}

/// Fair's place: after the sequent that fired, wrapping; a search that wraps; a complete base's own.
fn places(cases: &mut Cases) {
    let three =
        book((0..3).map(|relation| gives(vec![vec![fact(relation, a())]])).collect::<Vec<_>>());
    let line = |standing: &str, number: u64, place: usize, facts: &[u8]| {
        let held: String = facts.iter().map(|relation| format!("fact {relation} 0\n")).collect();
        let first = format!("{standing} {number} place {place} created 1\n");
        format!("{first}key 1 0 = 0\ndepth 0 0\n{held}")
    };
    let mut pool = vec![0; VERSION_1.pool(1)];
    cases.open("Fair", &three, &mut pool, [0, 1], 0);
    let after = [
        line("waiting", 1, 1, &[0]),
        line("waiting", 2, 2, &[0, 1]),
        line("waiting", 3, 0, &[0, 1, 2]),
        line("complete", 3, 0, &[0, 1, 2]),
    ];
    for (step, after) in after.iter().enumerate() {
        let what = format!("Fair, step {step}");
        cases.step(&what, &three, &mut pool, FREE, 0);
        cases.reads(&what, &pool, after);
    }
    // A sheet at a place with some of P, R and S held: what it is after a step.
    let tried: [(usize, &[u8], String); 6] = [
        (2, &[], line("waiting", 1, 0, &[2])),
        (2, &[2], line("waiting", 1, 1, &[0, 2])),
        (2, &[0, 2], line("waiting", 1, 2, &[0, 1, 2])),
        (1, &[1, 2], line("waiting", 1, 1, &[0, 1, 2])),
        (1, &[0, 1, 2], line("complete", 0, 1, &[0, 1, 2])),
        (2, &[0, 1, 2], line("complete", 0, 2, &[0, 1, 2])),
    ];
    for (place, relations, after) in tried {
        let facts: Vec<u64> = relations.iter().map(|&relation| held(relation, 0)).collect();
        let start = PlainSheet { place, ..sheet(1, &[constant(0, 0)], &facts) };
        let mut pool = waiting(&start, 1, 1);
        pool[6] = 1;
        let what = format!("Fair at {place}, held {relations:?}");
        cases.step(&what, &three, &mut pool, FREE, 0);
        cases.reads(&what, &pool, &after);
    }
}

/// Fair in a book of 128 sequents, the most that there are: sequents i and i + 64 give relation i.
fn many_places(cases: &mut Cases) {
    let sequents = (0..128).map(|i| gives(vec![vec![Literal::Fact(i % 64, vec![])]])).collect();
    let book = Draft { relations: vec![0; 64], sequents, ..Default::default() }.bytes();
    for (place, after) in
        [(127, "place 0 created 0\nfact 63\n"), (64, "place 65 created 0\nfact 0\n")]
    {
        let mut pool = waiting(&PlainSheet { place, ..Default::default() }, 1, 1);
        pool[6] = 1;
        let what = format!("Fair at {place} of 128 sequents");
        cases.step(&what, &book, &mut pool, FREE, 0);
        cases.reads(&what, &pool, &format!("waiting 1 {after}"));
    }
    let mut pool = vec![0; VERSION_1.pool(1)];
    cases.open("Fair, 128 sequents", &book, &mut pool, [0, 1], 0);
    cases.run("Fair, 64 relations told", &book, &mut pool, FREE, MAX, (14, 65));
}
