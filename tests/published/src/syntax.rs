//! Stands in for the parts of razor-fol's `syntax` that are not published: formulas as such,
//! signatures, theories. `symbol`, `term` and `formula::clause` are the published text.

use std::fmt;

include!(concat!(env!("OUT_DIR"), "/syntax.rs"));
pub mod formula;
pub mod signature;

pub use formula::Formula;
pub use signature::Sig;
pub use symbol::{Const, Func, Pred, Var};
pub use term::Term;

/// A formula; the chase only hands these on.
#[derive(Clone, PartialEq, Eq, Debug)]
pub enum FOF {
    Top,
    Bottom,
    Other,
}

impl FOF {
    pub fn free_vars(&self) -> Vec<&Var> {
        Vec::new()
    }
}

impl From<formula::Equals<term::Complex>> for FOF {
    fn from(_: formula::Equals<term::Complex>) -> Self {
        FOF::Other
    }
}

/// A list of formulas.
pub struct Theory<F>(pub Vec<F>);

impl<F> Theory<F> {
    pub fn iter(&self) -> impl Iterator<Item = &F> {
        self.0.iter()
    }
}

/// An inconsistent signature.
#[derive(Debug)]
pub struct Error;

impl fmt::Display for Error {
    fn fmt(&self, f: &mut fmt::Formatter) -> fmt::Result {
        write!(f, "inconsistent signature")
    }
}
