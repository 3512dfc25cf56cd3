//! Random books, shaped so that runs go on for some steps, branch, make elements and merge them.

use crate::draft::*;
use crate::rng::Rng;

/// What a term may be made of.
struct Scope<'a> {
    draft: &'a Draft,
    variables: u16,
}

/// A random book.
pub fn book(rng: &mut Rng) -> Draft {
    let mut draft = symbols(rng);
    if rng.odds(1, 150) {
        return draft;
    }
    let seeds = rng.range(2, 4);
    for _ in 0..seeds {
        let sequent = seed(rng, &draft);
        draft.sequents.push(sequent);
    }
    for _ in 0..rng.range(3, 7) {
        let sequent = match rng.below(20) {
            0..=8 => spread(rng, &draft),
            9..=14 => joining(rng, &draft),
            15 => failing(rng, &draft),
            16 => seed(rng, &draft),
            _ => anything(rng, &draft),
        };
        let place = rng.below(draft.sequents.len() + 1);
        draft.sequents.insert(place, sequent);
    }
    if rng.odds(1, 3) {
        share_witnesses(rng, &mut draft);
    }
    draft
}

/// A book of 128 sequents, or as many as a book's bytes have room for.
pub fn long_book(rng: &mut Rng) -> Draft {
    let mut draft = book(rng);
    while draft.sequents.len() < 128 {
        let free = rng.pick(&[0, 1, 1, 2]);
        let body = body(rng, &draft, free, 1);
        let mut head: Vec<Disjunct> =
            (0..rng.below(5)).map(|_| disjunct(rng, &draft, free, true)).collect();
        if let Some(first) = head.first_mut() {
            lengthen(rng, &draft, free, first);
        }
        draft.sequents.push(Sequent { free, body, head });
        if draft.bytes().len() > 32_768 {
            draft.sequents.pop();
            break;
        }
    }
    draft
}

fn symbols(rng: &mut Rng) -> Draft {
    let many = |rng: &mut Rng, least, most, from: &[u16]| {
        let count = rng.range(least, most);
        (0..count).map(|_| rng.pick(from)).collect::<Vec<u16>>()
    };
    if rng.odds(1, 25) {
        return Draft {
            constants: rng.range(9, 64) as u16,
            functions: many(rng, 9, 64, &[0, 1, 1, 2, 3, 4]),
            relations: many(rng, 9, 64, &[0, 1, 2, 3, 4]),
            constant_witnesses: rng.range(9, 64) as u16,
            witnesses: many(rng, 9, 64, &[1, 2, 3, 4]),
            sequents: Vec::new(),
        };
    }
    Draft {
        constants: rng.range(1, 4) as u16,
        functions: many(rng, 1, 3, &[0, 0, 1, 1, 1, 1, 1, 1, 1, 2, 2, 2, 2, 3, 4]),
        relations: many(rng, 2, 5, &[0, 0, 1, 1, 1, 1, 1, 1, 1, 2, 2, 2, 2, 2, 3, 4]),
        constant_witnesses: rng.range(1, 3) as u16,
        witnesses: many(rng, 1, 4, &[1, 1, 1, 1, 1, 1, 2, 2, 2, 2, 3, 4]),
        sequents: Vec::new(),
    }
}

fn term(rng: &mut Rng, scope: &Scope, levels: usize) -> Term {
    let variables = scope.variables as usize;
    let roll = rng.below(10);
    if variables > 0 && (roll < 6 || levels == 0) {
        return Term::Variable(rng.below(variables) as u16);
    }
    if roll < 7 || levels == 0 {
        return Term::Constant(rng.below(scope.draft.constants as usize) as u16);
    }
    let function = rng.below(scope.draft.functions.len());
    let arity = scope.draft.functions[function];
    let terms = (0..arity).map(|_| term(rng, scope, levels - 1)).collect();
    Term::Application(function as u16, terms)
}

fn fact(rng: &mut Rng, scope: &Scope, levels: usize) -> Literal {
    let relation = rng.below(scope.draft.relations.len());
    let arity = scope.draft.relations[relation];
    Literal::Fact(relation as u16, (0..arity).map(|_| term(rng, scope, levels)).collect())
}

/// Facts that name every free variable, so that few choices make the body true.
fn body(rng: &mut Rng, draft: &Draft, free: u16, least: usize) -> Vec<Literal> {
    let scope = Scope { draft, variables: free };
    let count = rng.range(least, 2.max(least));
    let mut literals: Vec<Literal> = (0..count).map(|_| fact(rng, &scope, 1)).collect();
    if rng.odds(1, 12) {
        let (left, right) = (term(rng, &scope, 1), term(rng, &scope, 1));
        literals.push(Literal::Identity(left, right));
    }
    literals
}

fn origins(rng: &mut Rng, draft: &Draft, free: u16, count: usize) -> Vec<Origin> {
    let origin = |rng: &mut Rng| {
        if free == 0 || rng.odds(1, 5) {
            let witness = rng.below(draft.constant_witnesses as usize) as u16;
            return Origin { kind: 0, witness, arguments: Vec::new() };
        }
        let witness = rng.below(draft.witnesses.len());
        let arity = draft.witnesses[witness];
        let arguments = (0..arity).map(|_| rng.below(free as usize) as u16).collect();
        Origin { kind: 1, witness: witness as u16, arguments }
    };
    (0..count).map(|_| origin(rng)).collect()
}

/// A disjunct of some facts and identities, now and then with an existential that none names.
fn disjunct(rng: &mut Rng, draft: &Draft, free: u16, identities: bool) -> Disjunct {
    let existentials = rng.pick(&[0, 0, 1, 1, 1, 2]);
    let origins = origins(rng, draft, free, existentials);
    let scope = Scope { draft, variables: free + existentials as u16 };
    let mut literals = Vec::new();
    for _ in 0..rng.range(1, 3) {
        if identities && rng.odds(1, 2) {
            let (left, right) = (term(rng, &scope, 2), term(rng, &scope, 2));
            literals.push(Literal::Identity(left, right));
        } else {
            literals.push(fact(rng, &scope, 2));
        }
    }
    Disjunct { origins, literals }
}

/// No body, no free variables: the start of a run. Chains of one function make merges go on.
fn seed(rng: &mut Rng, draft: &Draft) -> Sequent {
    let mut head: Vec<Disjunct> =
        (0..rng.pick(&[1, 1, 1, 2])).map(|_| disjunct(rng, draft, 0, false)).collect();
    if let Some(function) = draft.functions.iter().position(|&arity| arity == 1) {
        if rng.odds(2, 3) {
            let relation = rng.below(draft.relations.len());
            for start in 0..draft.constants.min(2) {
                let mut chain = Term::Constant(start);
                for _ in 0..rng.pick(&[1, 1, 1, 1, 2, 2, 2, 2, 3, 3, 3, 4, 7]) {
                    chain = Term::Application(function as u16, vec![chain]);
                }
                let arity = draft.relations[relation] as usize;
                let literal = Literal::Fact(relation as u16, vec![chain; arity]);
                head[0].literals.push(literal);
            }
        }
    }
    Sequent { free: 0, body: Vec::new(), head }
}

/// Facts give facts, in one to three disjuncts.
fn spread(rng: &mut Rng, draft: &Draft) -> Sequent {
    let free = rng.pick(&[1, 1, 1, 1, 2, 2, 3]);
    let body = body(rng, draft, free, 1);
    let disjuncts = rng.pick(&[1, 1, 1, 2, 2, 3]);
    let head = (0..disjuncts).map(|_| disjunct(rng, draft, free, false)).collect();
    Sequent { free, body, head }
}

/// Facts make elements equal, and say more of them afterwards.
fn joining(rng: &mut Rng, draft: &Draft) -> Sequent {
    let free = rng.pick(&[1, 2, 2, 2]);
    let body = body(rng, draft, free, 1);
    let mut first = disjunct(rng, draft, free, true);
    if free == 2 && rng.odds(3, 4) {
        let identity = Literal::Identity(Term::Variable(0), Term::Variable(1));
        let place = rng.pick(&[0, 0, 1]);
        first.literals.insert(place, identity);
        first.literals.push(fact(rng, &Scope { draft, variables: free }, 1));
    }
    let mut head = vec![first];
    if rng.odds(1, 3) {
        head.push(disjunct(rng, draft, free, true));
    }
    Sequent { free, body, head }
}

fn failing(rng: &mut Rng, draft: &Draft) -> Sequent {
    let free = rng.pick(&[1, 2]);
    Sequent { free, body: body(rng, draft, free, 2), head: Vec::new() }
}

/// Any shape at all, up to four variables.
fn anything(rng: &mut Rng, draft: &Draft) -> Sequent {
    let free = rng.pick(&[0, 1, 1, 2, 2, 3, 4]);
    let body = body(rng, draft, free, if free > 2 { 1 } else { 0 });
    let disjuncts = rng.pick(&[0, 1, 1, 1, 2, 2, 2, 4, 8]);
    let any = |rng: &mut Rng| {
        let identities = rng.odds(1, 2);
        disjunct(rng, draft, free, identities)
    };
    let mut head: Vec<Disjunct> = (0..disjuncts).map(|_| any(rng)).collect();
    if disjuncts > 0 && rng.odds(1, 20) {
        lengthen(rng, draft, free, &mut head[0]);
    }
    if disjuncts < 8 && rng.odds(1, 20) {
        head.push(Disjunct::default());
    }
    Sequent { free, body, head }
}

/// As many origins and literals as a disjunct may have, some literals twice.
fn lengthen(rng: &mut Rng, draft: &Draft, free: u16, disjunct: &mut Disjunct) {
    let more = origins(rng, draft, free, 4 - disjunct.origins.len());
    disjunct.origins.extend(more);
    let scope = Scope { draft, variables: free + 4 };
    while disjunct.literals.len() < 16 {
        let again = disjunct.literals[rng.below(disjunct.literals.len())].clone();
        disjunct.literals.push(if rng.odds(1, 3) { again } else { fact(rng, &scope, 1) });
    }
}

/// Copies one origin over another of the same number of free variables.
fn share_witnesses(rng: &mut Rng, draft: &mut Draft) {
    let mut places = Vec::new();
    for (s, sequent) in draft.sequents.iter().enumerate() {
        for (d, disjunct) in sequent.head.iter().enumerate() {
            places.extend((0..disjunct.origins.len()).map(|o| (s, d, o, sequent.free)));
        }
    }
    if places.len() < 2 {
        return;
    }
    let (s, d, o, free) = rng.pick(&places);
    let origin = draft.sequents[s].head[d].origins[o].clone();
    let (s, d, o, other) = rng.pick(&places);
    if free <= other {
        draft.sequents[s].head[d].origins[o] = origin;
    }
}
