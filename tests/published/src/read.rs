//! Makes the published sequents of a book that was accepted: the book's literal order, repeats
//! and declared variables are kept. Names are zero-padded, so their order is the numbers' order.

use crate::chase::r#impl::basic::{BasicSequent, Literal};
use crate::chase::Witness;
use crate::syntax::formula::{Atom, Equals};
use crate::syntax::term::Complex;
use crate::syntax::{Const, Func, Pred, Var};
use crate::transform::{Atoms, Disjunct, Head, GNF};

pub fn constant(number: usize) -> Const {
    Const::from(format!("c{number:03}"))
}

pub fn function(number: usize) -> Func {
    Func::from(format!("f{number:03}"))
}

pub fn relation(number: usize) -> String {
    format!("r{number:03}")
}

pub fn variable(number: usize) -> Var {
    Var::from(format!("v{number:03}"))
}

/// The number in a name that one of the functions above made.
pub fn number(name: &str) -> usize {
    name[1..].parse().expect("a name of our own")
}

struct Reader<'a> {
    bytes: &'a [u8],
    at: usize,
    functions: Vec<usize>,
    relations: Vec<usize>,
}

/// The sequents of an accepted book.
pub fn sequents(bytes: &[u8]) -> Vec<BasicSequent> {
    let mut reader = Reader { bytes, at: 5, functions: Vec::new(), relations: Vec::new() };
    let counts: Vec<usize> = (0..5).map(|_| reader.number()).collect();
    reader.functions = (0..counts[1]).map(|_| reader.number()).collect();
    reader.relations = (0..counts[2]).map(|_| reader.number()).collect();
    reader.at += 2 * counts[4];
    let count = reader.number();
    (0..count).map(|_| reader.sequent()).collect()
}

impl Reader<'_> {
    fn number(&mut self) -> usize {
        let value = u16::from_le_bytes([self.bytes[self.at], self.bytes[self.at + 1]]);
        self.at += 2;
        value as usize
    }

    fn sequent(&mut self) -> BasicSequent {
        let free = self.number();
        let body = self.literals();
        let disjuncts = self.number();
        let mut head = Vec::new();
        let mut origins = Vec::new();
        for _ in 0..disjuncts {
            let (disjunct, its_origins) = self.disjunct(free);
            head.push(disjunct);
            origins.push(its_origins);
        }
        let free = (0..free).map(variable).collect();
        BasicSequent::from_parts(&GNF { free, body, head: Head(head) }, origins)
    }

    fn disjunct(&mut self, free: usize) -> (Disjunct, Vec<(Witness, Vec<Var>)>) {
        let count = self.number();
        let origins = (0..count).map(|_| self.origin()).collect();
        let existentials = (free..free + count).map(variable).collect();
        let atoms = self.literals();
        (Disjunct { existentials, atoms }, origins)
    }

    fn origin(&mut self) -> (Witness, Vec<Var>) {
        let kind = self.number();
        let symbol = self.number();
        let arguments = self.number();
        let arguments = (0..arguments).map(|_| variable(self.number())).collect();
        let witness = if kind == 0 { Witness::constant(symbol) } else { Witness::function(symbol) };
        (witness, arguments)
    }

    fn literals(&mut self) -> Atoms {
        let count = self.number();
        Atoms((0..count).map(|_| self.literal()).collect())
    }

    fn literal(&mut self) -> Literal {
        if self.number() == 1 {
            let left = self.term();
            let right = self.term();
            return Equals { left, right }.into();
        }
        let symbol = self.number();
        let terms = (0..self.relations[symbol]).map(|_| self.term()).collect();
        Atom { predicate: Pred::from(relation(symbol)), terms }.into()
    }

    fn term(&mut self) -> Complex {
        let kind = self.number();
        let symbol = self.number();
        match kind {
            0 => Complex::from(variable(symbol)),
            1 => Complex::from(constant(symbol)),
            _ => {
                let terms = (0..self.functions[symbol]).map(|_| self.term()).collect();
                Complex::apply(function(symbol), terms)
            }
        }
    }
}
