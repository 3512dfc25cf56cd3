//! One child of a firing: its literals in order, put to the bound, recorded and merged
//! (01 "How a step goes").

use crate::book::{argument, head, rows, Book, Disjunct, Literal, Shape, KEY};
use crate::limits::{Limits, ELEMENTS};
use crate::look::Scope;
use crate::sheet::{arguments, arity, Sheet};
use crate::watch::{Room, Watch};

/// The bound of a call.
#[derive(Clone, Copy, PartialEq, Eq, Debug)]
pub struct Bound {
    pub kind: u32,
    pub number: u32,
}

impl Bound {
    /// A bound that is known; Unbounded has the number 0.
    pub fn known(self) -> bool {
        self.kind <= 3 && (self.kind != 0 || self.number == 0)
    }

    /// May a sheet of `size` elements grow by one of `depth`? Reuse refuses as Pure does.
    pub fn admits(self, size: usize, depth: u32) -> bool {
        match self.kind {
            0 => true,
            1 => size < self.number as usize,
            _ => depth <= self.number,
        }
    }
}

/// A child would pass a limit (refusal 15).
pub struct Over;

/// What a child needs beside its sheet: who merged into whom, and pairs still to merge.
pub struct Scratch {
    into: [u8; ELEMENTS],
    pending: Vec<(u8, u8, u32)>,
}

impl Scratch {
    pub fn new() -> Self {
        Scratch { into: [0; ELEMENTS], pending: Vec::new() }
    }
}

impl Default for Scratch {
    fn default() -> Self {
        Self::new()
    }
}

/// A child in the making.
pub struct Child<'a, W: Watch> {
    sheet: &'a mut Sheet,
    scope: Scope<'a>,
    scratch: &'a mut Scratch,
    limits: &'a Limits,
    bound: Bound,
    bounded: bool,
    watch: &'a mut W,
}

/// What a child is made for: a disjunct of a sequent with `free` variables, at `chosen`.
#[derive(Clone, Copy)]
pub struct Cause<'a> {
    pub book: &'a Book,
    pub disjunct: &'a Disjunct,
    pub free: u8,
    pub chosen: [u8; 4],
    pub bound: Bound,
}

/// Extends `sheet`, a copy of the base; says whether the child is bounded.
pub fn extend<W: Watch>(
    sheet: &mut Sheet,
    cause: &Cause,
    limits: &Limits,
    scratch: &mut Scratch,
    watch: &mut W,
) -> Result<bool, Over> {
    for element in 0..sheet.created {
        scratch.into[element] = element as u8;
    }
    let scope = Scope::head(cause.book, cause.disjunct, cause.free, cause.chosen);
    let bound = cause.bound;
    let mut child = Child { sheet, scope, scratch, limits, bound, bounded: false, watch };
    for literal in rows(&cause.book.literals, cause.disjunct.literals) {
        child.literal(literal)?;
    }
    let bounded = child.bounded;
    if bounded {
        watch.child_bounded();
    }
    Ok(bounded)
}

impl<W: Watch> Child<'_, W> {
    fn literal(&mut self, literal: &Literal) -> Result<(), Over> {
        let merged = self.watch.listens() && self.names_merged(literal);
        if merged {
            self.watch.literal_over_merged(self.bound.kind);
        }
        if self.exceeds(literal) {
            self.watch.skipped_literal(self.bound.kind, merged);
            self.bounded = true;
            return Ok(());
        }
        if self.scope.observed(self.sheet, literal) {
            return Ok(());
        }
        self.observe(literal)
    }

    /// Does the literal name an element merged away? Asked for the watch alone.
    fn names_merged(&self, literal: &Literal) -> bool {
        let mut at = literal.at as usize;
        for _ in 0..literal.terms {
            let end = at + self.scope.nodes[at].size as usize;
            let gone = self.scope.nodes[at..end].iter().any(|node| {
                let free = node.shape == Shape::Variable && node.symbol < self.scope.free;
                free && !self.sheet.alive.has(self.scope.chosen[node.symbol as usize])
            });
            if gone {
                return true;
            }
            at = end;
        }
        false
    }

    /// Does the bound refuse one of the literal's own unknown terms?
    fn exceeds(&self, literal: &Literal) -> bool {
        if self.bound.kind == 0 {
            return false;
        }
        let mut at = literal.at as usize;
        let mut before = 0;
        for _ in 0..literal.terms {
            if self.scope.look(self.sheet, at).is_none() {
                if !self.bound.admits(self.sheet.living + before, self.depth(at)) {
                    return true;
                }
                before += 1;
            }
            at += self.scope.nodes[at].size as usize;
        }
        false
    }

    /// The element that `element` was merged into, or itself.
    fn survivor(&self, element: u8) -> u8 {
        let mut element = element;
        while self.scratch.into[element as usize] != element {
            element = self.scratch.into[element as usize];
        }
        element
    }

    /// The depth that the term at `at` has, or would have once recorded.
    fn depth(&self, at: usize) -> u32 {
        if let Some(element) = self.scope.look(self.sheet, at) {
            return self.sheet.depths[element as usize] as u32;
        }
        let node = &self.scope.nodes[at];
        match node.shape {
            Shape::Variable if node.symbol < self.scope.free => self.chosen_depth(node.symbol),
            Shape::Variable => {
                let origin = self.scope.origin(node.symbol);
                let arguments = &origin.arguments[..origin.arity as usize];
                arguments.iter().map(|&v| self.chosen_depth(v) + 1).max().unwrap_or(0)
            }
            Shape::Constant => 0,
            Shape::Application => {
                let mut next = at + 1;
                let mut depth = 0;
                for _ in 0..node.arity {
                    depth = depth.max(self.depth(next) + 1);
                    next += self.scope.nodes[next].size as usize;
                }
                depth
            }
        }
    }

    /// The depth of a free variable's element, or of its survivor.
    fn chosen_depth(&self, variable: u8) -> u32 {
        let element = self.survivor(self.scope.chosen[variable as usize]);
        self.sheet.depths[element as usize] as u32
    }

    /// Records an admitted, unobserved literal, arguments first.
    fn observe(&mut self, literal: &Literal) -> Result<(), Over> {
        if literal.appended {
            self.watch.recorded_appended();
        }
        let at = literal.at as usize;
        if literal.identity {
            let left = self.record(at, false)?;
            let right = self.record(at + self.scope.nodes[at].size as usize, false)?;
            self.merge(left, right);
            return Ok(());
        }
        let mut fact = literal.head;
        let mut next = at;
        for i in 0..literal.terms as usize {
            fact |= argument(i, self.record(next, false)?);
            next += self.scope.nodes[next].size as usize;
        }
        if let Err(place) = self.sheet.facts.search(fact) {
            if self.sheet.facts.len() == self.limits.facts {
                self.watch.out_of_room(Room::Facts);
                return Err(Over);
            }
            self.sheet.facts.insert(place, fact);
        }
        Ok(())
    }

    /// The element of the term at `at`, made if there is none yet.
    fn record(&mut self, at: usize, inner: bool) -> Result<u8, Over> {
        let node = self.scope.nodes[at];
        match node.shape {
            Shape::Variable if node.symbol < self.scope.free => {
                Ok(self.survivor(self.scope.chosen[node.symbol as usize]))
            }
            Shape::Variable => {
                let origin = *self.scope.origin(node.symbol);
                let mut key = origin.head;
                for i in 0..origin.arity as usize {
                    let chosen = self.scope.chosen[origin.arguments[i] as usize];
                    key |= argument(i, self.survivor(chosen));
                }
                self.yielded(key)
            }
            Shape::Constant => self.yielded(node.head),
            Shape::Application => {
                self.tell_application(node.arity, inner);
                let mut key = node.head;
                let mut next = at + 1;
                for i in 0..node.arity as usize {
                    key |= argument(i, self.record(next, true)?);
                    next += self.scope.nodes[next].size as usize;
                }
                self.yielded(key)
            }
        }
    }

    fn tell_application(&mut self, arity: u8, inner: bool) {
        if inner {
            self.watch.recorded_nested();
        }
        if arity == 0 {
            self.watch.recorded_nullary();
        }
    }

    /// The element that `key` yields, a new one if the key is not held.
    fn yielded(&mut self, key: u64) -> Result<u8, Over> {
        let sheet = &mut *self.sheet;
        let place = match sheet.keys.search(key) {
            Ok(place) => return Ok(sheet.keys.rows()[place] as u8),
            Err(place) => place,
        };
        if sheet.created == self.limits.elements {
            self.watch.out_of_room(Room::Elements);
            return Err(Over);
        }
        if sheet.keys.len() == self.limits.keys {
            self.watch.out_of_room(Room::Keys);
            return Err(Over);
        }
        let element = sheet.created as u8;
        sheet.depths[element as usize] = sheet.depth_over(key) as u8;
        sheet.keys.insert(place, key | element as u64);
        sheet.created += 1;
        sheet.alive.add(element);
        sheet.living += 1;
        self.scratch.into[element as usize] = element;
        Ok(element)
    }

    /// Merges two elements and whatever follows by congruence, then lowers depths.
    fn merge(&mut self, left: u8, right: u8) {
        let mut rounds = 0;
        self.scratch.pending.clear();
        self.scratch.pending.push((left, right, 0));
        while let Some((a, b, round)) = self.scratch.pending.pop() {
            let (a, b) = (self.survivor(a), self.survivor(b));
            if a == b {
                continue;
            }
            self.watch.merged(self.sheet.keys.len(), self.sheet.facts.len());
            rounds = rounds.max(round + 1);
            let (keep, gone) = (a.min(b), a.max(b));
            self.scratch.into[gone as usize] = keep;
            self.sheet.replace(keep, gone, round + 1, &mut self.scratch.pending);
        }
        if rounds > 0 {
            self.watch.merge_done(rounds);
            let mut passes = 1;
            while self.sheet.lower_once(self.watch) {
                passes += 1;
            }
            self.watch.lowering_done(passes, self.sheet.keys.len(), self.sheet.living);
        }
    }
}

impl Sheet {
    /// The depth that `key` gives to what it yields.
    pub fn depth_over(&self, key: u64) -> u32 {
        arguments(key).map(|e| self.depths[e as usize] as u32 + 1).max().unwrap_or(0)
    }

    /// Writes `keep` for `gone` in keys and facts, keeps the smaller depth, and adds the values
    /// of keys that became equal to `pending`.
    fn replace(&mut self, keep: u8, gone: u8, round: u32, pending: &mut Vec<(u8, u8, u32)>) {
        replace_in(self.keys.rows_mut(), keep, gone, true);
        let mut kept = 0;
        for at in 0..self.keys.len() {
            let row = self.keys.rows()[at];
            if kept > 0 && (self.keys.rows()[kept - 1] & KEY) == (row & KEY) {
                let (one, other) = (self.keys.rows()[kept - 1] as u8, row as u8);
                if one != other {
                    pending.push((one, other, round));
                }
            } else {
                self.keys.rows_mut()[kept] = row;
                kept += 1;
            }
        }
        self.keys.truncate(kept);
        replace_in(self.facts.rows_mut(), keep, gone, false);
        let mut kept = 0;
        for at in 0..self.facts.len() {
            let row = self.facts.rows()[at];
            if kept == 0 || self.facts.rows()[kept - 1] != row {
                self.facts.rows_mut()[kept] = row;
                kept += 1;
            }
        }
        self.facts.truncate(kept);
        let depth = self.depths[gone as usize].min(self.depths[keep as usize]);
        self.depths[keep as usize] = depth;
        self.depths[gone as usize] = 0;
        self.alive.drop(gone);
        self.living -= 1;
    }

    /// Lowers depths through the keys once; says whether any fell.
    fn lower_once<W: Watch>(&mut self, watch: &mut W) -> bool {
        let mut fell = false;
        for at in 0..self.keys.len() {
            let row = self.keys.rows()[at];
            let depth = self.depth_over(row);
            if depth < self.depths[row as u8 as usize] as u32 {
                self.depths[row as u8 as usize] = depth as u8;
                watch.lowered();
                fell = true;
            }
        }
        fell
    }
}

/// Writes `keep` for `gone` in rows, values too if `values`, and sorts them again.
fn replace_in(table: &mut [u64], keep: u8, gone: u8, values: bool) {
    let mut changed = false;
    for row in table.iter_mut() {
        let mut new = *row & head(0xff, 0xff, 0xff);
        for (i, element) in arguments(*row).enumerate() {
            new |= argument(i, if element == gone { keep } else { element });
        }
        let value = *row as u8;
        new |= (if values && value == gone { keep } else { value }) as u64;
        changed |= new != *row;
        debug_assert!(arity(*row) <= 4);
        *row = new;
    }
    if changed {
        table.sort_unstable();
    }
}
