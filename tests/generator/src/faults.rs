//! Books with one fault made on purpose, at a chosen kind of number: the refusal and its byte
//! place are known from how the fault was made, not from the check.

use crate::draft::*;
use crate::rng::Rng;
use reference::check::{check_traced, Fault, NUMBERS};
use reference::limits::BOOK_BYTES;
use reference::Wanted::{self, *};

/// A refusal at a kind of number.
pub type Target = (u32, Wanted);

/// The refusals of a book but 2 and 8, at each kind of number that can have them.
const OTHERS: [Target; 36] = [
    (1, Length),
    (3, Mark),
    (4, Version),
    (5, Constants),
    (5, Functions),
    (5, Relations),
    (5, ConstantWitnesses),
    (5, FunctionWitnesses),
    (5, FunctionArity),
    (5, RelationArity),
    (5, WitnessArity),
    (5, Sequents),
    (5, Free),
    (5, Body),
    (5, Disjuncts),
    (5, Origins),
    (5, Literals),
    (6, OriginKind),
    (6, BodyLiteral),
    (6, HeadLiteral),
    (6, BodyTerm),
    (6, HeadTerm),
    (7, ConstantWitness),
    (7, FunctionWitness),
    (7, OriginArgument),
    (7, BodyRelation),
    (7, HeadRelation),
    (7, BodyVariable),
    (7, HeadVariable),
    (7, BodyConstant),
    (7, HeadConstant),
    (7, BodyFunction),
    (7, HeadFunction),
    (9, ConstantArguments),
    (9, FunctionArguments),
    (10, End),
];

/// Refusal 8, which needs books of its own.
const DEEP: [Target; 2] = [(8, BodyFunction), (8, HeadFunction)];

/// Every refusal of a book at every kind of number.
pub fn targets() -> Vec<Target> {
    let ends = NUMBERS.iter().map(|&wanted| (2, wanted));
    ends.chain(OTHERS).chain(DEEP).collect()
}

/// The name under which a target is counted.
pub fn name(target: Target) -> String {
    format!("book refusal {} at {:?}", target.0, target.1)
}

type Numbers = Vec<(usize, Wanted, u16)>;

/// A book with the fault `target` and no fault before it; none if `draft` has no such number.
pub fn faulty(rng: &mut Rng, draft: &Draft, target: Target) -> Option<(Vec<u8>, Fault)> {
    let (number, wanted) = target;
    if number == 8 {
        return deep(rng, draft, wanted);
    }
    let mut bytes = draft.bytes();
    let mut numbers = Numbers::new();
    check_traced(&bytes, &mut numbers).ok()?;
    let place = match wanted {
        Mark => rng.below(3),
        Length => 0,
        End => bytes.len(),
        _ => {
            let places: Vec<usize> =
                numbers.iter().filter(|n| n.1 == wanted).map(|n| n.0).collect();
            if places.is_empty() {
                return None;
            }
            rng.pick(&places)
        }
    };
    match number {
        1 => bytes.resize(BOOK_BYTES + rng.pick(&[1, 1, 2, 500]), rng.byte()),
        2 if wanted == Mark => bytes.truncate(place),
        2 => bytes.truncate(place + rng.below(2)),
        3 => spoil_mark(rng, &mut bytes, place),
        10 => (0..rng.pick(&[1, 1, 2, 7])).for_each(|_| bytes.push(rng.byte())),
        _ => {
            let value = wrong_value(rng, draft, &numbers, place, target);
            bytes[place..place + 2].copy_from_slice(&value.to_le_bytes());
            scramble(rng, &mut bytes, place + 2);
        }
    }
    Some((bytes, Fault { number, place, wanted }))
}

/// A wrong mark byte; the book may end right after it.
fn spoil_mark(rng: &mut Rng, bytes: &mut Vec<u8>, place: usize) {
    bytes[place] ^= rng.range(1, 255) as u8;
    if rng.odds(1, 3) {
        bytes.truncate(place + 1);
    }
}

/// What comes after the first fault does not matter.
fn scramble(rng: &mut Rng, bytes: &mut Vec<u8>, from: usize) {
    match rng.below(3) {
        0 => bytes.truncate(from + rng.below(bytes.len() - from + 1)),
        1 => bytes[from..].iter_mut().for_each(|byte| *byte = rng.byte()),
        _ => {}
    }
}

/// A value that is refused at `place` as `target` says.
fn wrong_value(
    rng: &mut Rng,
    draft: &Draft,
    numbers: &Numbers,
    place: usize,
    target: Target,
) -> u16 {
    let (number, wanted) = target;
    let least = match number {
        4 => return rng.pick(&[0, 2, 3, 256, 257, 65_535]),
        5 if wanted == WitnessArity && rng.odds(1, 2) => return 0,
        5 => most(wanted) + 1,
        6 => {
            if matches!(wanted, BodyTerm | HeadTerm) {
                3
            } else {
                2
            }
        }
        7 => declared(draft, numbers, place, wanted),
        _ => return wrong_arguments(rng, numbers, place),
    };
    let over = [least, least, least + 1, 256.max(least), 65_535];
    rng.pick(&over)
}

/// The greatest count or arity allowed.
fn most(wanted: Wanted) -> u16 {
    match wanted {
        FunctionArity | RelationArity | WitnessArity | Free | Origins => 4,
        Sequents => 128,
        Body | Literals => 16,
        Disjuncts => 8,
        _ => 64,
    }
}

/// The value of the last number of kind `wanted` before `place`.
fn last(numbers: &Numbers, place: usize, wanted: Wanted) -> u16 {
    let mut before = numbers.iter().rev().filter(|n| n.0 < place);
    before.find(|n| n.1 == wanted).map_or(0, |n| n.2)
}

/// How many symbols or variables are declared at `place`.
fn declared(draft: &Draft, numbers: &Numbers, place: usize, wanted: Wanted) -> u16 {
    match wanted {
        ConstantWitness => draft.constant_witnesses,
        FunctionWitness => draft.witnesses.len() as u16,
        BodyRelation | HeadRelation => draft.relations.len() as u16,
        BodyConstant | HeadConstant => draft.constants,
        BodyFunction | HeadFunction => draft.functions.len() as u16,
        HeadVariable => last(numbers, place, Free) + last(numbers, place, Origins),
        _ => last(numbers, place, Free),
    }
}

/// An argument count that is not the witness's.
fn wrong_arguments(rng: &mut Rng, numbers: &Numbers, place: usize) -> u16 {
    let right = numbers.iter().find(|n| n.0 == place).map_or(0, |n| n.2);
    let value = rng.pick(&[0, 1, 2, 3, 4, 5, 256, 65_535]);
    if value == right {
        value + 1
    } else {
        value
    }
}

/// A book whose last literal has an application with arguments at level 8.
fn deep(rng: &mut Rng, draft: &Draft, wanted: Wanted) -> Option<(Vec<u8>, Fault)> {
    let mut draft = draft.clone();
    draft.constants = draft.constants.max(1);
    let function = match draft.functions.iter().position(|&arity| arity > 0) {
        Some(function) => function as u16,
        None if draft.functions.len() < 64 => {
            draft.functions.push(rng.range(1, 4) as u16);
            draft.functions.len() as u16 - 1
        }
        None => return None,
    };
    let arity = draft.functions[function as usize] as usize;
    let mut term = Term::Constant(0);
    for _ in 0..7 {
        let mut terms = vec![Term::Constant(0); arity - 1];
        terms.push(term);
        term = Term::Application(function, terms);
    }
    let literal = Literal::Identity(Term::Constant(0), term);
    let body = wanted == BodyFunction;
    let head = vec![Disjunct { origins: Vec::new(), literals: vec![literal.clone()] }];
    let sequent = Sequent {
        free: 0,
        body: if body { vec![literal] } else { Vec::new() },
        head: if body { Vec::new() } else { head },
    };
    draft.sequents.truncate(127);
    draft.sequents.push(sequent);
    let mut bytes = draft.bytes();
    if bytes.len() > BOOK_BYTES {
        return None;
    }
    // The last term of the literal, at level 8, ends the book but for an empty head's count.
    let place = bytes.len() - if body { 4 } else { 2 };
    bytes[place - 2..place].copy_from_slice(&2u16.to_le_bytes());
    bytes[place..place + 2].copy_from_slice(&function.to_le_bytes());
    scramble(rng, &mut bytes, place + 2);
    Some((bytes, Fault { number: 8, place, wanted }))
}

/// A book that is full of everything, so that every kind of number is in it.
pub fn full(rng: &mut Rng) -> Draft {
    let mut draft = crate::shapes::book(rng);
    let variable = Term::Variable(0);
    let deeper = Term::Application(0, vec![Term::Constant(0); draft.functions[0] as usize]);
    let fact = |terms: &Term| Literal::Fact(0, vec![terms.clone(); draft.relations[0] as usize]);
    let all = |terms: [&Term; 3]| {
        let mut literals: Vec<Literal> = terms.iter().map(|t| fact(t)).collect();
        literals.push(Literal::Identity(variable.clone(), deeper.clone()));
        literals.push(Literal::Identity(Term::Constant(0), variable.clone()));
        literals
    };
    let arguments = vec![0; draft.witnesses[0] as usize];
    let origins = vec![
        Origin { kind: 0, witness: 0, arguments: Vec::new() },
        Origin { kind: 1, witness: 0, arguments },
    ];
    let literals = all([&Term::Variable(1), &deeper, &variable]);
    let body = all([&variable, &deeper, &Term::Constant(0)]);
    let head = vec![Disjunct { origins, literals }];
    draft.sequents.push(Sequent { free: 1, body, head });
    draft
}
