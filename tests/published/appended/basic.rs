impl BasicSequent {
    /// A sequent from finished parts: as `new` makes it, and then for each disjunct the origins'
    /// own witnesses and arguments.
    pub fn from_parts(sequent: &GNF, origins: Vec<Vec<(Witness, Vec<Var>)>>) -> Self {
        let mut witnesses = Witnesses::new(&Symbols::default());
        let mut result = Self::new(sequent, &mut witnesses);
        for (disjunct, origins) in result.head.iter_mut().zip(origins) {
            for (origin, (witness, args)) in disjunct.origins.iter_mut().zip(origins) {
                origin.witness = witness;
                origin.args = args;
            }
        }
        result
    }
}

impl BasicModel {
    /// A model from finished parts.
    pub fn from_parts(
        id: u64,
        element_index: i32,
        rewrites: BTreeMap<BasicWitnessTerm, E>,
        facts: BTreeSet<Observation<BasicWitnessTerm>>,
        depths: BTreeMap<E, u32>,
    ) -> Self {
        Self { id, element_index, rewrites, facts, equality_history: HashMap::new(), depths }
    }

    pub fn element_index(&self) -> i32 {
        self.element_index
    }

    pub fn rewrites(&self) -> &BTreeMap<BasicWitnessTerm, E> {
        &self.rewrites
    }

    pub fn fact_set(&self) -> &BTreeSet<Observation<BasicWitnessTerm>> {
        &self.facts
    }

    pub fn depths(&self) -> &BTreeMap<E, u32> {
        &self.depths
    }
}
