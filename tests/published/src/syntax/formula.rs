//! Stands in for razor-fol's `formula`: atoms, equations, negation and what `clause` asks of them.

use super::{symbol::Pred, term::Complex, Error, Sig, Term, Var};
use std::fmt;

include!(concat!(env!("OUT_DIR"), "/formula.rs"));

pub trait Formula {
    type Term: Term;

    fn signature(&self) -> Result<Sig, Error>;
    fn free_vars(&self) -> Vec<&Var>;
    fn transform_term(&self, f: &impl Fn(&Self::Term) -> Self::Term) -> Self;
}

pub trait FormulaEx: Formula {
    fn precedence(&self) -> u8;
}

#[derive(Clone, PartialEq, Eq, PartialOrd, Ord, Hash, Debug)]
pub struct Atom<T: Term> {
    pub predicate: Pred,
    pub terms: Vec<T>,
}

#[derive(Clone, PartialEq, Eq, PartialOrd, Ord, Hash, Debug)]
pub struct Equals<T: Term> {
    pub left: T,
    pub right: T,
}

#[derive(Clone, PartialEq, Eq, PartialOrd, Ord, Hash, Debug)]
pub struct Not<F> {
    pub formula: F,
}

#[derive(Clone, PartialEq, Eq, PartialOrd, Ord, Hash, Debug)]
pub enum Atomic<T: Term> {
    Atom(Atom<T>),
    Equals(Equals<T>),
}

impl<T: Term> From<Atom<T>> for Atomic<T> {
    fn from(atom: Atom<T>) -> Self {
        Atomic::Atom(atom)
    }
}

impl<T: Term> From<Equals<T>> for Atomic<T> {
    fn from(equals: Equals<T>) -> Self {
        Atomic::Equals(equals)
    }
}

impl<T: Term> Atomic<T> {
    fn terms(&self) -> Vec<&T> {
        match self {
            Atomic::Atom(atom) => atom.terms.iter().collect(),
            Atomic::Equals(equals) => vec![&equals.left, &equals.right],
        }
    }
}

impl<T: Term> Formula for Atomic<T> {
    type Term = T;

    fn signature(&self) -> Result<Sig, Error> {
        let terms = self.terms().into_iter();
        Sig::from_signatures(terms.map(|t| t.signature()).collect::<Result<Vec<_>, _>>()?)
    }

    fn free_vars(&self) -> Vec<&Var> {
        use itertools::Itertools;
        self.terms().into_iter().flat_map(|t| t.vars()).unique().collect()
    }

    fn transform_term(&self, f: &impl Fn(&T) -> T) -> Self {
        match self {
            Atomic::Atom(atom) => Atomic::Atom(Atom {
                predicate: atom.predicate.clone(),
                terms: atom.terms.iter().map(f).collect(),
            }),
            Atomic::Equals(equals) => {
                Atomic::Equals(Equals { left: f(&equals.left), right: f(&equals.right) })
            }
        }
    }
}

impl<T: Term> FormulaEx for Atomic<T> {
    fn precedence(&self) -> u8 {
        0
    }
}

impl fmt::Display for Atomic<Complex> {
    fn fmt(&self, f: &mut fmt::Formatter) -> fmt::Result {
        match self {
            Atomic::Atom(atom) => write!(f, "{}{:?}", atom.predicate, atom.terms),
            Atomic::Equals(equals) => write!(f, "{} = {}", equals.left, equals.right),
        }
    }
}
