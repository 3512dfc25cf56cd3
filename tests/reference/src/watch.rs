//! What a step tells to whoever counts. Every method does nothing by default, so a watch that
//! overrides none costs nothing.

/// What a child ran out of (refusal 15).
#[derive(Clone, Copy, PartialEq, Eq, Debug)]
pub enum Room {
    Elements,
    Keys,
    Facts,
}

/// A firing: which sequent, and where its choice stands among the choices.
#[derive(Clone, Copy, Debug)]
pub struct Firing {
    pub sequent: usize,
    pub free: u8,
    pub first_choice: bool,
    pub disjuncts: usize,
    /// How many sequents there are, and the place at which the strategy began.
    pub sequents: usize,
    pub started: usize,
}

pub trait Watch {
    /// Does the watch listen at all?
    fn listens(&self) -> bool {
        true
    }
    fn choice(&mut self) {}
    fn fired(&mut self, _firing: &Firing) {}
    fn failed(&mut self) {}
    fn complete(&mut self) {}
    fn child(&mut self, _disjunct: usize) {}
    fn skipped_literal(&mut self, _bound: u32, _over_merged: bool) {}
    fn literal_over_merged(&mut self, _bound: u32) {}
    fn recorded_nested(&mut self) {}
    fn recorded_nullary(&mut self) {}
    fn recorded_appended(&mut self) {}
    /// Two elements are about to become one in a sheet of so many keys and facts.
    fn merged(&mut self, _keys: usize, _facts: usize) {}
    fn merge_done(&mut self, _rounds: u32) {}
    fn lowered(&mut self) {}
    /// No depth falls any more after so many passes over the keys, the last of which found nothing,
    /// in a sheet of so many keys and living elements.
    fn lowering_done(&mut self, _passes: usize, _keys: usize, _living: usize) {}
    fn out_of_room(&mut self, _room: Room) {}
    fn child_bounded(&mut self) {}
}

/// Watches nothing.
pub struct Silent;

impl Watch for Silent {
    fn listens(&self) -> bool {
        false
    }
}
