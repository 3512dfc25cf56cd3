//! One step on a sound pool: pick, evaluate, make children, store them (01 "How a step goes").

use crate::book::{rows, Book};
use crate::child::{extend, Bound, Cause, Scratch};
use crate::evaluate::{evaluate, Outcome};
use crate::limits::Limits;
use crate::pool::{self, View, BOUNDED, COMPLETE, WAITING};
use crate::sheet::Sheet;
use crate::watch::Watch;

/// Room that steps use again and again.
pub struct Engine {
    base: Sheet,
    children: Vec<Sheet>,
    bounded: [bool; 8],
    domain: Vec<u8>,
    scratch: Scratch,
}

impl Engine {
    pub fn new() -> Self {
        Engine {
            base: Sheet::new(),
            children: Vec::new(),
            bounded: [false; 8],
            domain: Vec::new(),
            scratch: Scratch::new(),
        }
    }

    /// One step; 14 to 17 if it cannot be made, and then nothing is written.
    pub fn step<W: Watch>(
        &mut self,
        book: &Book,
        bytes: &mut [u8],
        limits: &Limits,
        bound: Bound,
        watch: &mut W,
    ) -> u32 {
        let view = View { bytes, limits };
        let Some(&slot) = view.list(WAITING).first() else { return 14 };
        self.base.load(view.sheet(slot as usize), limits);
        self.base.domain(&mut self.domain);
        match evaluate(book, &self.base, &self.domain, watch) {
            Outcome::Complete => {
                pool::pop_front(bytes, WAITING);
                pool::push_back(bytes, COMPLETE, slot);
                0
            }
            Outcome::Failed { .. } => {
                free_first(bytes, limits, WAITING);
                0
            }
            Outcome::Fires { sequent, chosen } => {
                self.fire(book, bytes, limits, bound, sequent, chosen, watch)
            }
        }
    }

    #[allow(clippy::too_many_arguments)]
    fn fire<W: Watch>(
        &mut self,
        book: &Book,
        bytes: &mut [u8],
        limits: &Limits,
        bound: Bound,
        sequent: usize,
        chosen: [u8; 4],
        watch: &mut W,
    ) -> u32 {
        let view = View { bytes, limits };
        let free = book.sequents[sequent].free;
        let disjuncts = rows(&book.disjuncts, book.sequents[sequent].head);
        let count = disjuncts.len();
        while self.children.len() < count {
            self.children.push(Sheet::new());
        }
        let first = book.sequents[sequent].head.0 as usize;
        for (i, disjunct) in disjuncts.iter().enumerate() {
            watch.child(first + i);
            let cause = Cause { book, disjunct, free, chosen, bound };
            let child = &mut self.children[i];
            child.copy_from(&self.base);
            match extend(child, &cause, limits, &mut self.scratch, watch) {
                Ok(bounded) => self.bounded[i] = bounded,
                Err(_) => return 15,
            }
        }
        if count > view.slots() - view.used().count_ones() as usize + 1 {
            return 16;
        }
        if count as u32 > view.numbers_left() {
            return 17;
        }
        let fair = view.strategy() == 1;
        let place = if fair { (sequent + 1) % book.sequents.len() } else { 0 };
        self.store(bytes, limits, count, place as u16);
        0
    }

    /// Frees the base's slot and stores the children, in disjunct order.
    fn store(&mut self, bytes: &mut [u8], limits: &Limits, count: usize, place: u16) {
        free_first(bytes, limits, WAITING);
        for i in 0..count {
            let view = View { bytes, limits };
            let (slot, next, lifo) =
                (view.used().trailing_ones() as u8, view.next(), view.scheduler() == 1);
            let child = &mut self.children[i];
            child.number = next as u16;
            child.place = place;
            child.store(pool::slot_mut(bytes, limits, slot), limits);
            pool::set_next(bytes, next + 1);
            match (self.bounded[i], lifo) {
                (true, _) => pool::push_back(bytes, BOUNDED, slot),
                (false, true) => pool::push_front(bytes, WAITING, slot),
                (false, false) => pool::push_back(bytes, WAITING, slot),
            }
        }
    }
}

impl Default for Engine {
    fn default() -> Self {
        Self::new()
    }
}

/// Takes the first slot off `list` and clears it.
pub fn free_first(bytes: &mut [u8], limits: &Limits, list: usize) {
    let slot = pool::pop_front(bytes, list);
    pool::slot_mut(bytes, limits, slot).fill(0);
}
