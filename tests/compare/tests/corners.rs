//! Document 01's corners on the reference, its listing example, and the limits of books and
//! sheets at their edges.

use compare::corners;
use compare::peer::ReferencePeer;
use generator::draft::*;
use generator::rng::Rng;
use generator::shapes;
use reference::calls::{open_with, run_with, step_with};
use reference::child::Bound;
use reference::listing::listing;
use reference::plain::PlainPool;
use reference::watch::Silent;
use reference::{chase_open, chase_run, VERSION_1, VERSION_2};

#[test]
fn corners_hold() {
    let wrong = corners::wrong(&ReferencePeer);
    assert!(wrong.is_empty(), "{}", wrong.join("\n"));
    assert_eq!(corners::corners().len(), 23);
}

#[test]
fn listing_example() {
    let numbers = [1, 0, 0, 1, 1, 0, 1, 1, 0, 0, 1, 1, 0, 0, 0, 1, 0, 0, 0, 0u16];
    let mut input = vec![0; 8];
    input.extend_from_slice(b"RUL");
    input.extend(numbers.iter().flat_map(|n| n.to_le_bytes()));
    let text = "stop 14 steps 2\ncomplete 1\nkey 3 0 = 0\ndepth 0 0\nfact 0 0\nwaiting 0\n";
    assert_eq!(listing(&input), text);
    assert_eq!(listing(&input[..7]), "refused 2\n");
    input[3] = 1;
    assert_eq!(listing(&input), "refused 12\n");
    input.push(0);
    assert_eq!(listing(&input), "refused 10\n");
}

#[test]
fn book_bytes_at_their_limit() {
    let mut book = Draft::default().bytes();
    let mut pool = vec![0; VERSION_1.pool(1)];
    assert_eq!(chase_open(&book, &mut pool, 0, 0), 0);
    book.resize(32_768, 0);
    assert_eq!(chase_open(&book, &mut pool, 0, 0), 10);
    book.push(0);
    assert_eq!(chase_open(&book, &mut pool, 0, 0), 1);
}

/// 128 sequents of one nullary relation, with as many literals as it takes to fill `units` fours.
fn filled_book(mut units: usize) -> Draft {
    let literal = Literal::Fact(0, vec![]);
    let mut draft = Draft { relations: vec![0], ..Draft::default() };
    for _ in 0..128 {
        let body = units.min(16);
        units -= body;
        let mut head = Vec::new();
        while units > 0 && head.len() < 8 {
            let literals = (units - 1).min(16);
            units -= literals + 1;
            head.push(Disjunct { origins: vec![], literals: vec![literal.clone(); literals] });
        }
        draft.sequents.push(Sequent { free: 0, body: vec![literal.clone(); body], head });
    }
    draft
}

#[test]
fn longest_book_is_accepted() {
    let book = filled_book((32_767 - 19 - 128 * 6) / 4).bytes();
    assert_eq!(book.len(), 32_767);
    let mut pool = vec![0; VERSION_1.pool(1)];
    assert_eq!(chase_open(&book, &mut pool, 1, 1), 0);
    assert_eq!(chase_run(&book, &mut pool, 0, 0, 9).0, 14);
}

/// "x gives P(f(x))" from one constant: one element more with each step.
fn chain() -> Draft {
    let x = Term::Variable(0);
    let grows = Literal::Fact(0, vec![Term::Application(0, vec![x])]);
    let begins = Literal::Fact(0, vec![Term::Constant(0)]);
    let rule = |free, literal| Sequent {
        free,
        body: vec![],
        head: vec![Disjunct { origins: vec![], literals: vec![literal] }],
    };
    Draft {
        constants: 1,
        functions: vec![1],
        relations: vec![1],
        sequents: vec![rule(0, begins), rule(1, grows)],
        ..Draft::default()
    }
}

#[test]
fn elements_at_their_limit() {
    let book = chain().bytes();
    let mut pool = vec![0; VERSION_1.pool(1)];
    assert_eq!(chase_open(&book, &mut pool, 0, 0), 0);
    assert_eq!(chase_run(&book, &mut pool, 0, 0, 1_000), (15, 64));
    assert_eq!(PlainPool::read(&pool, &VERSION_1).lists[0][0].created, 64);
    let mut pool = vec![0; VERSION_2.pool(1)];
    assert_eq!(open_with(&VERSION_2, &book, &mut pool, 0, 0), 0);
    let bound = Bound { kind: 0, number: 0 };
    assert_eq!(run_with(&VERSION_2, &book, &mut pool, bound, 1_000, &mut Silent), (15, 256));
}

/// The large limits give the same sheets as the small ones up to the small ones' first stop.
#[test]
fn larger_limits_agree() {
    let mut steps = 0;
    for index in 0..200 {
        let mut rng = Rng::new(9, index);
        let book = shapes::book(&mut rng).bytes();
        let bound = compare::published::random_bound(&mut rng);
        let (mut small, mut large) = (vec![0; VERSION_1.pool(12)], vec![0; VERSION_2.pool(12)]);
        assert_eq!(open_with(&VERSION_1, &book, &mut small, 0, 1), 0);
        assert_eq!(open_with(&VERSION_2, &book, &mut large, 0, 1), 0);
        for _ in 0..12 {
            if step_with(&VERSION_1, &book, &mut small, bound, &mut Silent) != 0 {
                break;
            }
            assert_eq!(step_with(&VERSION_2, &book, &mut large, bound, &mut Silent), 0);
            steps += 1;
            let (one, other) =
                (PlainPool::read(&small, &VERSION_1), PlainPool::read(&large, &VERSION_2));
            assert_eq!(one, other);
        }
    }
    assert!(steps > 500, "only {steps} steps");
}
