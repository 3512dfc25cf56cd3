//! A book before it is bytes.

#[derive(Clone, Debug, PartialEq, Eq)]
pub enum Term {
    Variable(u16),
    Constant(u16),
    Application(u16, Vec<Term>),
}

#[derive(Clone, Debug, PartialEq, Eq)]
pub enum Literal {
    Fact(u16, Vec<Term>),
    Identity(Term, Term),
}

#[derive(Clone, Debug, PartialEq, Eq)]
pub struct Origin {
    /// 0 constant witness, 1 function witness.
    pub kind: u16,
    pub witness: u16,
    pub arguments: Vec<u16>,
}

#[derive(Clone, Debug, Default, PartialEq, Eq)]
pub struct Disjunct {
    pub origins: Vec<Origin>,
    pub literals: Vec<Literal>,
}

#[derive(Clone, Debug, Default, PartialEq, Eq)]
pub struct Sequent {
    pub free: u16,
    pub body: Vec<Literal>,
    pub head: Vec<Disjunct>,
}

#[derive(Clone, Debug, Default, PartialEq, Eq)]
pub struct Draft {
    pub constants: u16,
    pub functions: Vec<u16>,
    pub relations: Vec<u16>,
    pub constant_witnesses: u16,
    pub witnesses: Vec<u16>,
    pub sequents: Vec<Sequent>,
}

struct Writer(Vec<u8>);

impl Writer {
    fn number(&mut self, value: usize) {
        self.0.extend_from_slice(&(value as u16).to_le_bytes());
    }

    fn term(&mut self, term: &Term) {
        match term {
            Term::Variable(v) => self.numbers(&[0, *v]),
            Term::Constant(c) => self.numbers(&[1, *c]),
            Term::Application(f, terms) => {
                self.numbers(&[2, *f]);
                terms.iter().for_each(|t| self.term(t));
            }
        }
    }

    fn numbers(&mut self, values: &[u16]) {
        values.iter().for_each(|&value| self.number(value as usize));
    }

    fn literals(&mut self, literals: &[Literal]) {
        self.number(literals.len());
        for literal in literals {
            match literal {
                Literal::Fact(relation, terms) => {
                    self.numbers(&[0, *relation]);
                    terms.iter().for_each(|t| self.term(t));
                }
                Literal::Identity(left, right) => {
                    self.number(1);
                    self.term(left);
                    self.term(right);
                }
            }
        }
    }

    fn disjunct(&mut self, disjunct: &Disjunct) {
        self.number(disjunct.origins.len());
        for origin in &disjunct.origins {
            self.numbers(&[origin.kind, origin.witness, origin.arguments.len() as u16]);
            self.numbers(&origin.arguments);
        }
        self.literals(&disjunct.literals);
    }
}

impl Draft {
    pub fn bytes(&self) -> Vec<u8> {
        let mut writer = Writer(b"RUL".to_vec());
        writer.numbers(&[1, self.constants]);
        writer.number(self.functions.len());
        writer.number(self.relations.len());
        writer.number(self.constant_witnesses as usize);
        writer.number(self.witnesses.len());
        writer.numbers(&self.functions);
        writer.numbers(&self.relations);
        writer.numbers(&self.witnesses);
        writer.number(self.sequents.len());
        for sequent in &self.sequents {
            writer.number(sequent.free as usize);
            writer.literals(&sequent.body);
            writer.number(sequent.head.len());
            sequent.head.iter().for_each(|d| writer.disjunct(d));
        }
        writer.0
    }
}
