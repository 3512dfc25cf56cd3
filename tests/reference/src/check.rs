//! The check of a book: refusals 1 to 10, the first fault in byte order, with its place
//! (01 "The rule book", "Refusal numbers"). A book without fault is read into flat tables.

use crate::book::*;
use crate::limits::BOOK_BYTES;

/// The kinds of numbers of a book, in byte order, and the list of them.
macro_rules! numbers {
    ($($number:ident),*) => {
        /// What a number of a book is there for. Counting refusals goes by these.
        #[derive(Clone, Copy, PartialEq, Eq, Hash, PartialOrd, Ord, Debug)]
        pub enum Wanted {
            Length,
            $($number,)*
            End,
        }

        /// Every kind of number that a book may end before (2).
        pub const NUMBERS: &[Wanted] = &[$(Wanted::$number),*];
    };
}

numbers![
    Mark,
    Version,
    Constants,
    Functions,
    Relations,
    ConstantWitnesses,
    FunctionWitnesses,
    FunctionArity,
    RelationArity,
    WitnessArity,
    Sequents,
    Free,
    Body,
    Disjuncts,
    Origins,
    Literals,
    OriginKind,
    ConstantWitness,
    FunctionWitness,
    ConstantArguments,
    FunctionArguments,
    OriginArgument,
    BodyLiteral,
    HeadLiteral,
    BodyRelation,
    HeadRelation,
    BodyTerm,
    HeadTerm,
    BodyVariable,
    HeadVariable,
    BodyConstant,
    HeadConstant,
    BodyFunction,
    HeadFunction
];

/// Why a book is refused, and at which byte.
#[derive(Clone, Copy, PartialEq, Eq, Debug)]
pub struct Fault {
    pub number: u32,
    pub place: usize,
    pub wanted: Wanted,
}

/// Is told of every number that the check reads; `()` listens to none.
pub trait Trace {
    fn number(&mut self, _place: usize, _wanted: Wanted, _value: u16) {}
}

impl Trace for () {}

impl Trace for Vec<(usize, Wanted, u16)> {
    fn number(&mut self, place: usize, wanted: Wanted, value: u16) {
        self.push((place, wanted, value));
    }
}

/// Checks `bytes` as a book.
pub fn check(bytes: &[u8]) -> Result<Book, Fault> {
    check_traced(bytes, &mut ())
}

/// Checks `bytes` and tells `trace` of each number.
pub fn check_traced<T: Trace>(bytes: &[u8], trace: &mut T) -> Result<Book, Fault> {
    if bytes.len() > BOOK_BYTES {
        return Err(Fault { number: 1, place: 0, wanted: Wanted::Length });
    }
    let mut reader = Reader { bytes, at: 0, book: Book::default(), named: 0, trace };
    reader.mark()?;
    reader.symbols()?;
    let sequents = reader.counted(Wanted::Sequents, 0, 128)?;
    for _ in 0..sequents {
        reader.sequent()?;
    }
    if reader.at < bytes.len() {
        return Err(reader.fault(10, Wanted::End));
    }
    Ok(reader.book)
}

/// Where a literal stands: how many variables it may name, and whether in a body.
#[derive(Clone, Copy)]
struct Scope {
    variables: u16,
    body: bool,
}

impl Scope {
    fn pick(&self, body: Wanted, head: Wanted) -> Wanted {
        if self.body {
            body
        } else {
            head
        }
    }
}

struct Reader<'a, T: Trace> {
    bytes: &'a [u8],
    at: usize,
    book: Book,
    /// The variables that the literals of the current disjunct name, as bits.
    named: u32,
    trace: &'a mut T,
}

impl<T: Trace> Reader<'_, T> {
    fn fault(&self, number: u32, wanted: Wanted) -> Fault {
        Fault { number, place: self.at, wanted }
    }

    /// The next number, still at its place; 2 if the book ends before or inside it.
    fn peek(&mut self, wanted: Wanted) -> Result<u16, Fault> {
        match self.bytes.get(self.at..self.at + 2) {
            Some(two) => {
                let value = u16::from_le_bytes([two[0], two[1]]);
                self.trace.number(self.at, wanted, value);
                Ok(value)
            }
            None => Err(self.fault(2, wanted)),
        }
    }

    /// A number from `least` to `most`, else 5.
    fn counted(&mut self, wanted: Wanted, least: u16, most: u16) -> Result<u16, Fault> {
        let value = self.peek(wanted)?;
        if value < least || value > most {
            return Err(self.fault(5, wanted));
        }
        self.at += 2;
        Ok(value)
    }

    /// A number below `count`, else the refusal `number`.
    fn below(&mut self, wanted: Wanted, count: u16, number: u32) -> Result<u16, Fault> {
        let value = self.peek(wanted)?;
        if value >= count {
            return Err(self.fault(number, wanted));
        }
        self.at += 2;
        Ok(value)
    }

    fn mark(&mut self) -> Result<(), Fault> {
        for byte in *b"RUL" {
            match self.bytes.get(self.at) {
                None => return Err(self.fault(2, Wanted::Mark)),
                Some(&found) if found != byte => return Err(self.fault(3, Wanted::Mark)),
                Some(_) => self.at += 1,
            }
        }
        if self.peek(Wanted::Version)? != 1 {
            return Err(self.fault(4, Wanted::Version));
        }
        self.at += 2;
        Ok(())
    }

    fn symbols(&mut self) -> Result<(), Fault> {
        self.book.constants = self.counted(Wanted::Constants, 0, 64)? as u8;
        let functions = self.counted(Wanted::Functions, 0, 64)?;
        let relations = self.counted(Wanted::Relations, 0, 64)?;
        self.book.constant_witnesses = self.counted(Wanted::ConstantWitnesses, 0, 64)? as u8;
        let witnesses = self.counted(Wanted::FunctionWitnesses, 0, 64)?;
        self.book.functions = self.arities(functions, Wanted::FunctionArity, 0)?;
        self.book.relations = self.arities(relations, Wanted::RelationArity, 0)?;
        self.book.witnesses = self.arities(witnesses, Wanted::WitnessArity, 1)?;
        Ok(())
    }

    fn arities(&mut self, count: u16, wanted: Wanted, least: u16) -> Result<Vec<u8>, Fault> {
        let mut arities = Vec::with_capacity(count as usize);
        for _ in 0..count {
            arities.push(self.counted(wanted, least, 4)? as u8);
        }
        Ok(arities)
    }

    fn sequent(&mut self) -> Result<(), Fault> {
        let free = self.counted(Wanted::Free, 0, 4)?;
        let body_count = self.counted(Wanted::Body, 0, 16)?;
        let scope = Scope { variables: free, body: true };
        let body = self.literals(body_count, scope)?;
        let disjuncts = self.counted(Wanted::Disjuncts, 0, 8)?;
        let first = self.book.disjuncts.len() as u32;
        for _ in 0..disjuncts {
            let disjunct = self.disjunct(free)?;
            self.book.disjuncts.push(disjunct);
        }
        let head = (first, self.book.disjuncts.len() as u32);
        self.book.sequents.push(Sequent { free: free as u8, body, head });
        Ok(())
    }

    fn disjunct(&mut self, free: u16) -> Result<Disjunct, Fault> {
        let origins = self.counted(Wanted::Origins, 0, 4)?;
        let first = self.book.origins.len() as u32;
        for _ in 0..origins {
            let origin = self.origin(free)?;
            self.book.origins.push(origin);
        }
        let count = self.counted(Wanted::Literals, 0, 16)?;
        self.named = 0;
        let mut literals =
            self.literals(count, Scope { variables: free + origins, body: false })?;
        for existential in free..free + origins {
            if self.named & (1 << existential) == 0 {
                self.append_identity(existential as u8);
            }
        }
        literals.1 = self.book.literals.len() as u32;
        Ok(Disjunct { origins: (first, self.book.origins.len() as u32), literals })
    }

    fn origin(&mut self, free: u16) -> Result<Origin, Fault> {
        let (kind, symbol, arity) = if self.below(Wanted::OriginKind, 2, 6)? == 0 {
            let count = self.book.constant_witnesses as u16;
            let symbol = self.below(Wanted::ConstantWitness, count, 7)?;
            (CONSTANT_WITNESS, symbol, 0)
        } else {
            let count = self.book.witnesses.len() as u16;
            let symbol = self.below(Wanted::FunctionWitness, count, 7)?;
            (FUNCTION_WITNESS, symbol, self.book.witnesses[symbol as usize])
        };
        let wanted = if arity == 0 { Wanted::ConstantArguments } else { Wanted::FunctionArguments };
        if self.peek(wanted)? != arity as u16 {
            return Err(self.fault(9, wanted));
        }
        self.at += 2;
        let mut arguments = [0; 4];
        for place in arguments.iter_mut().take(arity as usize) {
            *place = self.below(Wanted::OriginArgument, free, 7)? as u8;
        }
        Ok(Origin { head: head(kind, symbol as u8, arity), arity, arguments })
    }

    /// The identity "v = v" of an existential that no literal names.
    fn append_identity(&mut self, variable: u8) {
        let at = self.book.nodes.len() as u32;
        let node = Node { shape: Shape::Variable, symbol: variable, arity: 0, size: 1, head: 0 };
        self.book.nodes.extend([node, node]);
        let literal = Literal { identity: true, terms: 2, at, head: 0, appended: true };
        self.book.literals.push(literal);
    }

    fn literals(&mut self, count: u16, scope: Scope) -> Result<Part, Fault> {
        let first = self.book.literals.len() as u32;
        for _ in 0..count {
            let literal = self.literal(scope)?;
            self.book.literals.push(literal);
        }
        Ok((first, self.book.literals.len() as u32))
    }

    fn literal(&mut self, scope: Scope) -> Result<Literal, Fault> {
        let at = self.book.nodes.len() as u32;
        let kind = self.below(scope.pick(Wanted::BodyLiteral, Wanted::HeadLiteral), 2, 6)?;
        let (identity, terms, head) = if kind == 0 {
            let wanted = scope.pick(Wanted::BodyRelation, Wanted::HeadRelation);
            let relation = self.below(wanted, self.book.relations.len() as u16, 7)?;
            let arity = self.book.relations[relation as usize];
            (false, arity, head(0, relation as u8, arity))
        } else {
            (true, 2, 0)
        };
        for _ in 0..terms {
            self.term(1, scope)?;
        }
        Ok(Literal { identity, terms, at, head, appended: false })
    }

    /// One term; `level` is 1 for a literal's own.
    fn term(&mut self, level: u8, scope: Scope) -> Result<(), Fault> {
        let at = self.book.nodes.len();
        let node = match self.below(scope.pick(Wanted::BodyTerm, Wanted::HeadTerm), 3, 6)? {
            0 => {
                let wanted = scope.pick(Wanted::BodyVariable, Wanted::HeadVariable);
                let symbol = self.below(wanted, scope.variables, 7)? as u8;
                self.named |= 1 << symbol;
                Node { shape: Shape::Variable, symbol, arity: 0, size: 1, head: 0 }
            }
            1 => {
                let wanted = scope.pick(Wanted::BodyConstant, Wanted::HeadConstant);
                let symbol = self.below(wanted, self.book.constants as u16, 7)? as u8;
                let head = head(CONSTANT, symbol, 0);
                Node { shape: Shape::Constant, symbol, arity: 0, size: 1, head }
            }
            _ => self.function(level, scope)?,
        };
        self.book.nodes.push(node);
        for _ in 0..node.arity {
            self.term(level + 1, scope)?;
        }
        self.book.nodes[at].size = (self.book.nodes.len() - at) as u16;
        Ok(())
    }

    /// The function's number of an application: 7, then 8 if it has arguments at level 8.
    fn function(&mut self, level: u8, scope: Scope) -> Result<Node, Fault> {
        let wanted = scope.pick(Wanted::BodyFunction, Wanted::HeadFunction);
        let symbol = self.below(wanted, self.book.functions.len() as u16, 7)? as u8;
        let arity = self.book.functions[symbol as usize];
        if arity > 0 && level == 8 {
            self.at -= 2;
            return Err(self.fault(8, wanted));
        }
        let head = head(APPLICATION, symbol, arity);
        Ok(Node { shape: Shape::Application, symbol, arity, size: 1, head })
    }
}
