//! Stands in for razor-fol's `transform`: a sequent in geometric normal form is here what it is
//! made of, handed over finished, so that `BasicSequent::new` can read it.

use crate::syntax::{formula::Atomic, formula::Formula, term::Complex, Theory, Var, FOF};

/// Conjoined atoms, in the order given.
pub struct Atoms(pub Vec<Atomic<Complex>>);

impl Atoms {
    pub fn iter(&self) -> std::slice::Iter<'_, Atomic<Complex>> {
        self.0.iter()
    }

    pub fn free_vars(&self) -> Vec<&Var> {
        use itertools::Itertools;
        self.0.iter().flat_map(|atom| atom.free_vars()).unique().collect()
    }
}

impl From<&Atoms> for FOF {
    fn from(atoms: &Atoms) -> FOF {
        if atoms.0.is_empty() {
            FOF::Top
        } else {
            FOF::Other
        }
    }
}

/// A disjunct of a head.
pub struct Disjunct {
    pub existentials: Vec<Var>,
    pub atoms: Atoms,
}

impl Disjunct {
    pub fn existentials(&self) -> &[Var] {
        &self.existentials
    }

    pub fn atoms(&self) -> &Atoms {
        &self.atoms
    }
}

/// The disjuncts of a head.
pub struct Head(pub Vec<Disjunct>);

impl Head {
    pub fn iter(&self) -> std::slice::Iter<'_, Disjunct> {
        self.0.iter()
    }
}

impl From<&Head> for FOF {
    fn from(head: &Head) -> FOF {
        if head.0.is_empty() {
            FOF::Bottom
        } else {
            FOF::Other
        }
    }
}

/// A sequent from finished parts.
pub struct GNF {
    pub free: Vec<Var>,
    pub body: Atoms,
    pub head: Head,
}

impl GNF {
    pub fn free_vars(&self) -> Vec<&Var> {
        self.free.iter().collect()
    }

    pub fn body(&self) -> &Atoms {
        &self.body
    }

    pub fn head(&self) -> &Head {
        &self.head
    }

    /// Each origin of a book has its own arguments, put in after the sequent is read.
    pub fn dependencies(&self, _: &Disjunct) -> Vec<Var> {
        Vec::new()
    }
}

/// The symbols that the conversion introduced: none, as there is no conversion.
#[derive(Default)]
pub struct Symbols;

impl Symbols {
    pub fn constants(&self) -> usize {
        0
    }

    pub fn functions(&self) -> usize {
        0
    }
}

#[derive(Clone, Copy, Debug, Default)]
pub struct Geometrization;

pub trait ToGNF {
    fn gnf_with(&self, geometrization: Geometrization, symbols: &mut Symbols) -> Vec<GNF>;
}

impl ToGNF for FOF {
    fn gnf_with(&self, _: Geometrization, _: &mut Symbols) -> Vec<GNF> {
        unimplemented!("books hold finished sequents; no formula is converted")
    }
}

/// Formulas are never read here.
pub type Formulas = Theory<FOF>;
