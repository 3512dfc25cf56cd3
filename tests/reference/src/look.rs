//! Looking up a term and testing a literal in a sheet at a choice (01 "How a step goes").

use crate::book::{argument, Book, Disjunct, Literal, Node, Origin, Shape};
use crate::sheet::Sheet;

/// What variables stand for: chosen elements, and origins for existentials.
#[derive(Clone, Copy)]
pub struct Scope<'a> {
    pub nodes: &'a [Node],
    pub origins: &'a [Origin],
    pub free: u8,
    pub chosen: [u8; 4],
}

impl<'a> Scope<'a> {
    /// The scope of a body.
    pub fn body(book: &'a Book, free: u8, chosen: [u8; 4]) -> Self {
        Scope { nodes: &book.nodes, origins: &[], free, chosen }
    }

    /// The scope of `disjunct`.
    pub fn head(book: &'a Book, disjunct: &Disjunct, free: u8, chosen: [u8; 4]) -> Self {
        let origins = crate::book::rows(&book.origins, disjunct.origins);
        Scope { nodes: &book.nodes, origins, free, chosen }
    }

    /// The origin of an existential.
    pub fn origin(&self, variable: u8) -> &'a Origin {
        &self.origins[(variable - self.free) as usize]
    }

    /// The element of the term at `at`; none if it, or an element in it, is unknown.
    pub fn look(&self, sheet: &Sheet, at: usize) -> Option<u8> {
        let node = &self.nodes[at];
        match node.shape {
            Shape::Variable if node.symbol < self.free => {
                let element = self.chosen[node.symbol as usize];
                sheet.alive.has(element).then_some(element)
            }
            Shape::Variable => self.look_origin(sheet, node.symbol),
            Shape::Constant => sheet.find(node.head),
            Shape::Application => {
                let mut key = node.head;
                let mut next = at + 1;
                for i in 0..node.arity as usize {
                    key |= argument(i, self.look(sheet, next)?);
                    next += self.nodes[next].size as usize;
                }
                sheet.find(key)
            }
        }
    }

    fn look_origin(&self, sheet: &Sheet, variable: u8) -> Option<u8> {
        let origin = self.origin(variable);
        let mut key = origin.head;
        for i in 0..origin.arity as usize {
            let element = self.chosen[origin.arguments[i] as usize];
            if !sheet.alive.has(element) {
                return None;
            }
            key |= argument(i, element);
        }
        sheet.find(key)
    }

    /// Is `literal` observed in `sheet`?
    pub fn observed(&self, sheet: &Sheet, literal: &Literal) -> bool {
        let at = literal.at as usize;
        if literal.identity {
            let left = self.look(sheet, at);
            let right = at + self.nodes[at].size as usize;
            return left.is_some() && left == self.look(sheet, right);
        }
        let mut fact = literal.head;
        let mut next = at;
        for i in 0..literal.terms as usize {
            match self.look(sheet, next) {
                Some(element) => fact |= argument(i, element),
                None => return false,
            }
            next += self.nodes[next].size as usize;
        }
        sheet.facts.search(fact).is_ok()
    }
}
