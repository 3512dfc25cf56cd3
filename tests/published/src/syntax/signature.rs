//! Stands in for razor-fol's signatures, of which `term` and `clause` speak and which the chase
//! never asks for.

use super::{Const, Error, Func};

pub struct FuncSig {
    pub symbol: Func,
    pub arity: u8,
}

#[derive(Default)]
pub struct Sig {
    constants: Vec<Const>,
    functions: Vec<FuncSig>,
}

impl Sig {
    pub fn new() -> Self {
        Sig::default()
    }

    pub fn add_constant(&mut self, constant: Const) {
        self.constants.push(constant);
    }

    pub fn add_function(&mut self, function: FuncSig) -> Result<(), Error> {
        let mut held = self.functions.iter();
        if held.any(|f| f.symbol == function.symbol && f.arity != function.arity) {
            return Err(Error);
        }
        self.functions.push(function);
        Ok(())
    }

    pub fn merge(mut self, other: Sig) -> Result<Sig, Error> {
        self.constants.extend(other.constants);
        for function in other.functions {
            self.add_function(function)?;
        }
        Ok(self)
    }

    pub fn from_signatures(signatures: Vec<Sig>) -> Result<Sig, Error> {
        signatures.into_iter().try_fold(Sig::new(), Sig::merge)
    }
}
