impl Witness {
    /// The constant witness of a number.
    pub fn constant(index: usize) -> Self {
        Witness { kind: Kind::Constant, index }
    }

    /// The function witness of a number.
    pub fn function(index: usize) -> Self {
        Witness { kind: Kind::Function, index }
    }

    /// Is it a function witness, and its number.
    pub fn parts(&self) -> (bool, usize) {
        (self.kind == Kind::Function, self.index)
    }
}
