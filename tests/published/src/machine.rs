//! Steps the published chase on a book and shows its state in plain parts.
//!
//! An evaluator of our own stands around the published one and does nothing but note where the
//! strategy stood before and after: the Rust drops the strategy of a complete or bounded model,
//! and the document gives both a place.

use crate::chase::r#impl::basic::{BasicEvaluator, BasicModel, BasicSequent, BasicWitnessTerm};
use crate::chase::scheduler::Dispatch;
use crate::chase::strategy::{Fair, Linear};
use crate::chase::*;
use crate::read;
use crate::shim::rand;
use reference::book::{argument, head};
use reference::plain::{PlainPool, PlainSheet};
use reference::sheet::{arguments, arity};
use std::cell::Cell;
use std::collections::{BTreeMap, BTreeSet, VecDeque};

/// A strategy whose place can be seen and set.
pub trait Placed {
    fn place(&self) -> usize;
    fn at(self, place: usize) -> Self;
}

impl<S: Sequent> Placed for Linear<S> {
    fn place(&self) -> usize {
        Linear::place(self)
    }

    fn at(self, _: usize) -> Self {
        self
    }
}

impl<'s, S: Sequent> Placed for Fair<'s, S> {
    fn place(&self) -> usize {
        Fair::place(self)
    }

    fn at(self, place: usize) -> Self {
        Fair::at(self, place)
    }
}

/// The published evaluator, with the strategy's places noted.
struct Noting {
    before: Cell<usize>,
    after: Cell<usize>,
}

impl<'s, Stg: Strategy<&'s BasicSequent> + Placed> Evaluator<'s, Stg> for Noting {
    type Sequent = BasicSequent;
    type Model = BasicModel;

    fn evaluate<B: Bounder + ?Sized>(
        &self,
        model: &BasicModel,
        strategy: &mut Stg,
        bound: &B,
    ) -> Option<EvaluateResult<BasicModel>> {
        self.before.set(strategy.place());
        let result = BasicEvaluator.evaluate(model, strategy, bound);
        self.after.set(strategy.clone().place());
        result
    }
}

/// The bound of a call, as the published kinds.
pub fn bounder(kind: u32, number: u32) -> Box<dyn Bounder> {
    match kind {
        0 => Box::new(Unbounded),
        1 => Box::new(DomainSize(number as usize)),
        2 => Box::new(Depth { max: number, mode: DepthMode::Pure }),
        _ => Box::new(Depth { max: number, mode: DepthMode::Reuse }),
    }
}

/// A run of the published chase under one strategy.
pub struct Machine<'s, Stg: Strategy<&'s BasicSequent> + Placed> {
    scheduler: Dispatch<&'s BasicSequent, BasicModel, Stg>,
    lists: [VecDeque<(BasicModel, usize)>; 2],
}

/// What the comparison asks of a machine.
pub trait Steps {
    /// One step; false if nothing waits.
    fn step(&mut self, bound: u32, number: u32) -> bool;
    /// Up to `budget` steps by the published evaluator alone, with nothing noted; how many were
    /// made. The place of a model that ends is not known then, and is given as 0.
    fn run(&mut self, bound: u32, number: u32, budget: u32) -> u32;
    /// Drops the first complete (0) or bounded (1) model; false if there is none.
    fn take(&mut self, list: usize) -> bool;
    fn state(&self) -> PlainPool;
    /// The published `chase_all` from here on: complete models, then bounded ones.
    fn rest(&mut self, bound: u32, number: u32) -> Vec<PlainSheet>;
}

/// A machine for `sequents`, over one waiting, empty model 0.
pub fn open<'s>(
    sequents: &'s [BasicSequent],
    scheduler: u32,
    strategy: u32,
) -> Box<dyn Steps + 's> {
    rand::set_next(0);
    start(sequents, scheduler, strategy, vec![(BasicModel::new(), 0)])
}

/// A machine that goes on from sheets that wait, and gives `next` as its next number.
pub fn resume<'s>(
    sequents: &'s [BasicSequent],
    scheduler: u32,
    strategy: u32,
    waiting: &[PlainSheet],
    next: u64,
) -> Box<dyn Steps + 's> {
    let models = waiting.iter().map(|sheet| (model(sheet), sheet.place)).collect();
    rand::set_next(next);
    start(sequents, scheduler, strategy, models)
}

fn start<'s>(
    sequents: &'s [BasicSequent],
    scheduler: u32,
    strategy: u32,
    models: Vec<(BasicModel, usize)>,
) -> Box<dyn Steps + 's> {
    if strategy == 0 {
        Box::new(Machine::<Linear<&BasicSequent>>::new(sequents, scheduler, models))
    } else {
        Box::new(Machine::<Fair<BasicSequent>>::new(sequents, scheduler, models))
    }
}

impl<'s, Stg: Strategy<&'s BasicSequent> + Placed> Machine<'s, Stg> {
    fn new(sequents: &'s [BasicSequent], scheduler: u32, models: Vec<(BasicModel, usize)>) -> Self {
        let (mut scheduler, models) = if scheduler == 0 {
            (Dispatch::new_fifo(), models)
        } else {
            (Dispatch::new_lifo(), models.into_iter().rev().collect())
        };
        for (model, place) in models {
            let strategy: Stg = sequents.iter().collect();
            scheduler.add(model, strategy.at(place));
        }
        Machine { scheduler, lists: Default::default() }
    }
}

impl<'s, Stg: Strategy<&'s BasicSequent> + Placed> Steps for Machine<'s, Stg> {
    fn step(&mut self, bound: u32, number: u32) -> bool {
        if self.scheduler.empty() {
            return false;
        }
        let noting = Noting { before: Cell::new(0), after: Cell::new(0) };
        let bounder = bounder(bound, number);
        let [complete, bounded] = &mut self.lists;
        chase_step(
            &mut self.scheduler,
            &noting,
            &*bounder,
            |model| complete.push_back((model.finalize(), noting.before.get())),
            |model| bounded.push_back((model.finalize(), noting.after.get())),
        );
        true
    }

    fn run(&mut self, bound: u32, number: u32, budget: u32) -> u32 {
        let bounder = bounder(bound, number);
        let [complete, bounded] = &mut self.lists;
        for steps in 0..budget {
            if self.scheduler.empty() {
                return steps;
            }
            chase_step(
                &mut self.scheduler,
                &BasicEvaluator,
                &*bounder,
                |model: BasicModel| complete.push_back((model.finalize(), 0)),
                |model: BasicModel| bounded.push_back((model.finalize(), 0)),
            );
        }
        budget
    }

    fn take(&mut self, list: usize) -> bool {
        self.lists[list].pop_front().is_some()
    }

    fn state(&self) -> PlainPool {
        let waiting = self.scheduler.waiting().map(|(m, s)| plain(m, s.place())).collect();
        let [complete, bounded] = &self.lists;
        let list =
            |l: &VecDeque<(BasicModel, usize)>| l.iter().map(|(m, p)| plain(m, *p)).collect();
        PlainPool { lists: [waiting, list(complete), list(bounded)] }
    }

    fn rest(&mut self, bound: u32, number: u32) -> Vec<PlainSheet> {
        let models = chase_all(&mut self.scheduler, &BasicEvaluator, &*bounder(bound, number));
        models.iter().map(|model| plain(model, 0)).collect()
    }
}

fn pack(entry: u64, terms: &[BasicWitnessTerm]) -> u64 {
    terms.iter().enumerate().fold(entry, |entry, (i, term)| match term {
        BasicWitnessTerm::Elem(element) => entry | argument(i, element.0 as u8),
        _ => panic!("a key or fact over something else than elements"),
    })
}

fn pack_key(term: &BasicWitnessTerm, value: &E) -> u64 {
    let of = |kind, symbol: usize, terms: &[BasicWitnessTerm]| {
        pack(head(kind, symbol as u8, terms.len() as u8), terms)
    };
    let key = match term {
        BasicWitnessTerm::Elem(_) => panic!("an element as a key"),
        BasicWitnessTerm::Const(c) => of(1, read::number(c.name()), &[]),
        BasicWitnessTerm::App { function, terms } => of(2, read::number(function.name()), terms),
        BasicWitnessTerm::Witness { witness, terms } => {
            let (function, number) = witness.parts();
            of(if function { 4 } else { 3 }, number, terms)
        }
    };
    key | value.0 as u64
}

fn pack_fact(fact: &Observation<BasicWitnessTerm>) -> u64 {
    match fact {
        Observation::Fact { relation, terms } => {
            let number = read::number(relation.name());
            pack(head(0, number as u8, terms.len() as u8), terms)
        }
        Observation::Identity { .. } => panic!("an identity among the facts"),
    }
}

/// A model in plain parts, in the model's own order.
fn plain(model: &BasicModel, place: usize) -> PlainSheet {
    PlainSheet {
        number: model.get_id(),
        place,
        created: model.element_index() as usize,
        keys: model.rewrites().iter().map(|(term, value)| pack_key(term, value)).collect(),
        facts: model.fact_set().iter().map(pack_fact).collect(),
        depths: model.depths().iter().map(|(e, depth)| (e.0 as u8, *depth)).collect(),
    }
}

/// A model from a sheet's plain parts.
fn model(sheet: &PlainSheet) -> BasicModel {
    let terms = |row: u64| arguments(row).map(|e| E(e as i32).into()).collect::<Vec<_>>();
    let mut rewrites = BTreeMap::new();
    for &row in &sheet.keys {
        let (kind, symbol) = ((row >> 56) as u8, (row >> 48) as u8 as usize);
        let key = match kind {
            1 => BasicWitnessTerm::Const(read::constant(symbol)),
            2 => BasicWitnessTerm::apply(read::function(symbol), terms(row)),
            3 => BasicWitnessTerm::Witness { witness: Witness::constant(symbol), terms: vec![] },
            _ => {
                BasicWitnessTerm::Witness { witness: Witness::function(symbol), terms: terms(row) }
            }
        };
        rewrites.insert(key, E(row as u8 as i32));
    }
    let facts = sheet.facts.iter().map(|&row| {
        debug_assert!(arity(row) <= 4);
        Rel::from(read::relation((row >> 48) as u8 as usize)).app(terms(row))
    });
    let facts: BTreeSet<_> = facts.collect();
    let depths = sheet.depths.iter().map(|&(e, depth)| (E(e as i32), depth)).collect();
    BasicModel::from_parts(sheet.number, sheet.created as i32, rewrites, facts, depths)
}
