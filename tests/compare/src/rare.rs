//! Steps that scenarios make seldom or never: the corners, a sheet that holds all the facts that
//! fit, and existentials that no literal names, with room for them and without.

use crate::corners::corners;
use crate::judge::{Judge, Judged};
use generator::draft::*;
use generator::pools::{depths, pool_bytes, Header};
use reference::book::{argument, head};
use reference::child::Bound;
use reference::plain::{PlainPool, PlainSheet};
use reference::VERSION_1;
use Term::{Constant, Variable};

/// Constants, each with an element of its own.
const CONSTANTS: u8 = 20;

/// A sheet with the constants and so many keys and facts: the further keys are applications, the
/// facts (1, 0) to (16, 7) of one relation.
fn sheet(created: usize, keys: usize, facts: usize) -> PlainSheet {
    let constants = (0..CONSTANTS).map(|c| head(1, c, 0) | c as u64);
    let rest = keys as u8 - CONSTANTS;
    let application = |i: u8| head(2, i / CONSTANTS, 1) | argument(0, i % CONSTANTS) | 7;
    let fact = |i: u8| head(0, 0, 2) | argument(0, 1 + i / 8) | argument(1, i % 8);
    let keys: Vec<u64> = constants.chain((0..rest).map(application)).collect();
    let depths = depths(&keys).expect("a sheet with names");
    let facts = (0..facts as u8).map(fact).collect();
    PlainSheet { number: 0, place: 0, created, keys, facts, depths }
}

/// A book of one rule for the elements 5 and 18 alone.
fn book(disjunct: Disjunct) -> Vec<u8> {
    let named = |v, c| Literal::Identity(Variable(v), Constant(c));
    let body = vec![named(0, 5), named(1, 18)];
    let draft = Draft {
        constants: CONSTANTS as u16,
        functions: vec![1; 8],
        relations: vec![2],
        constant_witnesses: 1,
        witnesses: vec![1],
        sequents: vec![Sequent { free: 2, body, head: vec![disjunct] }],
    };
    draft.bytes()
}

/// A step on one waiting sheet, which has to answer this.
fn step(
    judge: &mut Judge,
    what: &str,
    (book, sheet): (&[u8], PlainSheet),
    (scheduler, bound): (u8, (u32, u32)),
    wanted: u32,
) -> Judged<Vec<u8>> {
    let header = Header { scheduler, strategy: 0, next: sheet.number as u32 + 1 };
    let lists = [vec![sheet], vec![], vec![]];
    let mut pool = pool_bytes(&PlainPool { lists }, header, 12, &VERSION_1);
    let got = judge.step(book, &mut pool, Bound { kind: bound.0, number: bound.1 })?;
    if got != wanted {
        return Err(format!("{what}: answers {got}, not {wanted}"));
    }
    Ok(pool)
}

fn corner_steps(judge: &mut Judge) -> Judged<usize> {
    for corner in corners() {
        let on = (&corner.draft.bytes()[..], corner.start);
        let pool = step(judge, corner.name, on, (corner.scheduler as u8, corner.bound), 0)?;
        if PlainPool::read(&pool, &VERSION_1).text() != corner.after {
            return Err(format!("{}: another state than the corner's", corner.name));
        }
    }
    Ok(corners().len())
}

/// 128 facts, 18 merged into 5, and one more fact wanted: refused wherever it would stand, unless it
/// is held already under its survivor's name.
fn fact_steps(judge: &mut Judge) -> Judged<usize> {
    let wanted = [
        (Constant(0), Constant(0), 15),
        (Constant(1), Constant(8), 15),
        (Constant(9), Constant(19), 15),
        (Constant(16), Constant(8), 15),
        (Constant(19), Constant(19), 15),
        (Variable(1), Constant(9), 15),
        (Variable(1), Constant(7), 0),
    ];
    let count = wanted.len();
    for (first, second, answer) in wanted {
        let what = format!("128 facts, and {first:?} {second:?}");
        let merge = Literal::Identity(Variable(0), Variable(1));
        let literals = vec![merge, Literal::Fact(0, vec![first, second])];
        let book = book(Disjunct { origins: vec![], literals });
        step(judge, &what, (&book, sheet(20, 20, 128)), (0, (0, 0)), answer)?;
    }
    Ok(count)
}

/// Two existentials and no literal: each is an element and a key more, and the bound is asked.
fn existential_steps(judge: &mut Judge) -> Judged<usize> {
    let origins = vec![
        Origin { kind: 0, witness: 0, arguments: vec![] },
        Origin { kind: 1, witness: 0, arguments: vec![1] },
    ];
    let book = book(Disjunct { origins, literals: vec![] });
    let wanted = [
        ((20, 20), (0, 0), 0),
        ((20, 20), (1, 21), 0),
        ((20, 20), (1, 22), 0),
        ((20, 20), (1, 23), 0),
        ((20, 20), (2, 0), 0),
        ((20, 20), (3, 1), 0),
        ((62, 20), (0, 0), 0),
        ((63, 20), (0, 0), 15),
        ((63, 20), (2, 0), 0),
        ((64, 20), (0, 0), 15),
        ((64, 20), (1, 1), 0),
        ((20, 126), (0, 0), 0),
        ((20, 127), (0, 0), 15),
        ((20, 127), (3, 0), 0),
        ((20, 128), (0, 0), 15),
    ];
    for ((created, keys), bound, answer) in wanted {
        let what = format!("existentials, {created} elements, {keys} keys, bound {bound:?}");
        step(judge, &what, (&book, sheet(created, keys, 3)), (0, bound), answer)?;
    }
    Ok(wanted.len())
}

/// Makes all the steps; answers how many.
pub fn steps(judge: &mut Judge) -> Judged<usize> {
    Ok(corner_steps(judge)? + fact_steps(judge)? + existential_steps(judge)?)
}
