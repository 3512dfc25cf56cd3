//! A checked book in flat tables: what the evaluator reads (01 "The rule book").
//!
//! Terms stand in prefix order; a node knows how many nodes its term takes and the packed head
//! of its key, so that a lookup only fills in arguments.

/// A digit's place in a packed entry: kind, symbol, arity, four arguments, value.
pub const fn head(kind: u8, symbol: u8, arity: u8) -> u64 {
    ((kind as u64) << 56) | ((symbol as u64) << 48) | ((arity as u64) << 40)
}

/// Argument `i` of a packed entry.
pub const fn argument(i: usize, element: u8) -> u64 {
    (element as u64) << (32 - 8 * i)
}

/// The part of a packed key that decides its order: all but the value.
pub const KEY: u64 = !0xff;

pub const CONSTANT: u8 = 1;
pub const APPLICATION: u8 = 2;
pub const CONSTANT_WITNESS: u8 = 3;
pub const FUNCTION_WITNESS: u8 = 4;

/// A range of one of the book's tables.
pub type Part = (u32, u32);

/// The rows of `table` that `part` names.
pub fn rows<T>(table: &[T], part: Part) -> &[T] {
    &table[part.0 as usize..part.1 as usize]
}

#[derive(Clone, Copy, PartialEq, Eq, Debug)]
pub enum Shape {
    Variable,
    Constant,
    Application,
}

/// One node of a term.
#[derive(Clone, Copy, Debug)]
pub struct Node {
    pub shape: Shape,
    /// The variable, constant or function.
    pub symbol: u8,
    pub arity: u8,
    /// The nodes of the whole term.
    pub size: u16,
    /// The key without arguments and value; 0 for a variable.
    pub head: u64,
}

#[derive(Clone, Copy, Debug)]
pub struct Literal {
    pub identity: bool,
    /// The number of the literal's own terms.
    pub terms: u8,
    /// The first node.
    pub at: u32,
    /// The fact without arguments; 0 for an identity.
    pub head: u64,
    /// Was appended for an existential that no literal names.
    pub appended: bool,
}

#[derive(Clone, Copy, Debug)]
pub struct Origin {
    pub head: u64,
    pub arity: u8,
    pub arguments: [u8; 4],
}

#[derive(Clone, Copy, Debug)]
pub struct Disjunct {
    pub origins: Part,
    pub literals: Part,
}

#[derive(Clone, Copy, Debug)]
pub struct Sequent {
    pub free: u8,
    pub body: Part,
    pub head: Part,
}

/// A checked book.
#[derive(Clone, Debug, Default)]
pub struct Book {
    pub constants: u8,
    pub functions: Vec<u8>,
    pub relations: Vec<u8>,
    pub constant_witnesses: u8,
    pub witnesses: Vec<u8>,
    pub sequents: Vec<Sequent>,
    pub disjuncts: Vec<Disjunct>,
    pub origins: Vec<Origin>,
    pub literals: Vec<Literal>,
    pub nodes: Vec<Node>,
}

impl Book {
    /// The arity of the symbol that a key of `kind` names, if it is declared.
    pub fn key_arity(&self, kind: u8, symbol: u8) -> Option<u8> {
        match kind {
            CONSTANT => (symbol < self.constants).then_some(0),
            APPLICATION => self.functions.get(symbol as usize).copied(),
            CONSTANT_WITNESS => (symbol < self.constant_witnesses).then_some(0),
            FUNCTION_WITNESS => self.witnesses.get(symbol as usize).copied(),
            _ => None,
        }
    }

    /// The arity of a relation, if it is declared.
    pub fn fact_arity(&self, relation: u8) -> Option<u8> {
        self.relations.get(relation as usize).copied()
    }
}
