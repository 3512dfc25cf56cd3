impl<S: Sequent> Linear<S> {
    /// The index of the next sequent.
    pub fn place(&self) -> usize {
        self.index
    }
}

impl<'s, S: Sequent> Fair<'s, S> {
    /// The index of the next sequent.
    pub fn place(&self) -> usize {
        self.index
    }

    /// The strategy at a given place, as a clone at that place is.
    pub fn at(mut self, place: usize) -> Self {
        self.index = place;
        self.start = place;
        self.full_circle = false;
        self
    }
}
