//! What a record of a lone sheet meets, by name, and how often each name is met.

use generator::draft::{Draft, Literal, Sequent, Term};
use std::collections::BTreeMap;

/// The names of records that pass the checks.
const PASSED: [&str; 27] = [
    "Linear: choice not the first, of two or more variables",
    "Linear: choice not the first, of three or more variables",
    "Linear: the sheet's place is not 0, and the first that fires is before it",
    "Linear: the sheet's place is not 0, nothing fires",
    "Fair: choice not the first, of two or more variables",
    "Fair: choice not the first, of three or more variables",
    "Fair: fires at the place, which is not 0",
    "Fair: fires behind the place, which is not 0",
    "Fair: fires before the place, the order wraps",
    "Fair: the place is not 0, nothing fires",
    "empty domain: fires",
    "empty domain: a sequent with variables is passed over and another fires",
    "empty domain: nothing fires",
    "fires with 0 variables",
    "fires with 1 variables",
    "fires with 2 variables",
    "fires with 3 variables",
    "fires with 4 variables",
    "fires without a head",
    "fires with a fact in the body",
    "fires with an identity in the body",
    "fires with a nullary term in the body",
    "fires with a nested term in the body",
    "nullary term in a head that is not observed",
    "nested term in a head that is not observed",
    "domain not in the order of numbers",
    "nothing fires, on two elements or more",
];

/// The names of all records.
fn all() -> Vec<String> {
    let refused = (1..=10).map(|number| format!("book refused {number}"));
    let others = ["strategy not known", "sheet not sound"].into_iter().chain(PASSED);
    refused.chain(others.map(|name| name.to_string())).collect()
}

/// How often each name is met.
pub struct Names(BTreeMap<String, u64>);

impl Default for Names {
    fn default() -> Self {
        Names(all().into_iter().map(|name| (name, 0)).collect())
    }
}

impl Names {
    /// Is a name among these that was met fewer than `times` times?
    pub fn want(&self, met: &[String], times: u64) -> bool {
        met.iter().any(|name| self.0.get(name).is_some_and(|&count| count < times))
    }

    pub fn add(&mut self, met: &[String]) {
        for name in met {
            *self.0.entry(name.clone()).or_default() += 1;
        }
    }

    pub fn all(&self) -> impl Iterator<Item = (&String, &u64)> {
        self.0.iter()
    }
}

/// What the reference saw of a record that passes the checks.
pub struct Seen<'a> {
    pub draft: Option<&'a Draft>,
    pub linear: bool,
    pub place: usize,
    pub domain: &'a [u8],
    /// The sequent's number and the choice.
    pub fired: Option<(usize, Vec<u8>)>,
}

fn nullary(term: &Term) -> bool {
    matches!(term, Term::Application(_, terms) if terms.is_empty() || terms.iter().any(nullary))
}

/// Has an application an application as argument?
fn nested(term: &Term) -> bool {
    let Term::Application(_, terms) = term else { return false };
    terms.iter().any(|inner| matches!(inner, Term::Application(..)))
}

fn any_term(literals: &[Literal], holds: fn(&Term) -> bool) -> bool {
    literals.iter().any(|literal| match literal {
        Literal::Fact(_, terms) => terms.iter().any(holds),
        Literal::Identity(left, right) => holds(left) || holds(right),
    })
}

/// The names that a record meets.
pub fn met(seen: &Seen) -> Vec<String> {
    let mut names: Vec<String> = Vec::new();
    let mut say = |holds: bool, name: &str| {
        if holds {
            names.push(name.to_string());
        }
    };
    say(!seen.domain.windows(2).all(|two| two[0] < two[1]), "domain not in the order of numbers");
    match &seen.fired {
        None => quiet(seen, &mut say),
        Some((sequent, choice)) => {
            ordered(seen, *sequent, choice, &mut say);
            if let Some(draft) = seen.draft {
                formed(seen, &draft.sequents[*sequent], &mut say);
                let passed = draft.sequents[..*sequent].iter().any(|passed| passed.free > 0);
                let from_first = seen.linear || seen.place == 0;
                say(
                    seen.domain.is_empty() && from_first && passed,
                    "empty domain: a sequent with variables is passed over and another fires",
                );
            }
        }
    }
    names
}

/// Nothing fires.
fn quiet(seen: &Seen, say: &mut impl FnMut(bool, &str)) {
    let strategy = if seen.linear { "Linear: the sheet's place" } else { "Fair: the place" };
    say(seen.place > 0, &format!("{strategy} is not 0, nothing fires"));
    say(seen.domain.is_empty(), "empty domain: nothing fires");
    say(seen.domain.len() > 1, "nothing fires, on two elements or more");
}

/// Which of the sequents and of the choices fired.
fn ordered(seen: &Seen, sequent: usize, choice: &[u8], say: &mut impl FnMut(bool, &str)) {
    let strategy = if seen.linear { "Linear" } else { "Fair" };
    let later = choice.iter().any(|&element| element != seen.domain[0]);
    for (least, count) in [(2, "two"), (3, "three")] {
        say(
            later && choice.len() >= least,
            &format!("{strategy}: choice not the first, of {count} or more variables"),
        );
    }
    if seen.linear {
        say(
            sequent < seen.place,
            "Linear: the sheet's place is not 0, and the first that fires is before it",
        );
    } else if seen.place > 0 {
        say(sequent == seen.place, "Fair: fires at the place, which is not 0");
        say(sequent > seen.place, "Fair: fires behind the place, which is not 0");
        say(sequent < seen.place, "Fair: fires before the place, the order wraps");
    }
    say(seen.domain.is_empty(), "empty domain: fires");
    say(true, &format!("fires with {} variables", choice.len()));
}

/// What the sequent that fired is made of. Its body is observed, and no disjunct is.
fn formed(seen: &Seen, sequent: &Sequent, say: &mut impl FnMut(bool, &str)) {
    let body = &sequent.body;
    let fact = |literal: &Literal| matches!(literal, Literal::Fact(..));
    say(sequent.head.is_empty(), "fires without a head");
    say(body.iter().any(fact), "fires with a fact in the body");
    say(!body.iter().all(fact), "fires with an identity in the body");
    say(any_term(body, nullary), "fires with a nullary term in the body");
    say(any_term(body, nested), "fires with a nested term in the body");
    let heads = |holds: fn(&Term) -> bool| {
        !seen.domain.is_empty() && sequent.head.iter().any(|d| any_term(&d.literals, holds))
    };
    say(heads(nullary), "nullary term in a head that is not observed");
    say(heads(nested), "nested term in a head that is not observed");
}
