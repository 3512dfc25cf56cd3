//! Which sequent fires at which choice (01 "How a step goes").

use crate::book::{rows, Book, Sequent};
use crate::look::Scope;
use crate::sheet::Sheet;
use crate::watch::{Firing, Watch};

/// What a step does to its base.
#[derive(Clone, Copy, PartialEq, Eq, Debug)]
pub enum Outcome {
    Complete,
    Failed { sequent: usize, chosen: [u8; 4] },
    Fires { sequent: usize, chosen: [u8; 4] },
}

/// Does `sequent` fire at `chosen`: body observed, and no disjunct fully observed?
fn fires(book: &Book, sheet: &Sheet, sequent: &Sequent, chosen: [u8; 4]) -> bool {
    let body = Scope::body(book, sequent.free, chosen);
    if !rows(&book.literals, sequent.body).iter().all(|l| body.observed(sheet, l)) {
        return false;
    }
    !rows(&book.disjuncts, sequent.head).iter().any(|disjunct| {
        let head = Scope::head(book, disjunct, sequent.free, chosen);
        rows(&book.literals, disjunct.literals).iter().all(|l| head.observed(sheet, l))
    })
}

/// Makes `choice`, a list of places in the domain, the next one, the first variable fastest.
fn next_choice(choice: &mut [usize], size: usize) -> bool {
    for place in choice {
        *place += 1;
        if *place < size {
            return true;
        }
        *place = 0;
    }
    false
}

/// The first choice at which `sequent` fires, and whether it is the first of all.
fn firing_choice<W: Watch>(
    book: &Book,
    sheet: &Sheet,
    sequent: &Sequent,
    domain: &[u8],
    watch: &mut W,
) -> Option<([u8; 4], bool)> {
    let free = sequent.free as usize;
    if domain.is_empty() && free > 0 {
        return None;
    }
    let mut choice = [0; 4];
    loop {
        watch.choice();
        let mut chosen = [0; 4];
        for variable in 0..free {
            chosen[variable] = domain[choice[variable]];
        }
        if fires(book, sheet, sequent, chosen) {
            return Some((chosen, choice == [0; 4]));
        }
        if !next_choice(&mut choice[..free], domain.len()) {
            return None;
        }
    }
}

/// Goes through the sequents from the sheet's place on, wrapping.
pub fn evaluate<W: Watch>(book: &Book, sheet: &Sheet, domain: &[u8], watch: &mut W) -> Outcome {
    let sequents = book.sequents.len();
    let started = sheet.place as usize;
    for index in (started..sequents).chain(0..started) {
        let sequent = &book.sequents[index];
        if let Some((chosen, first_choice)) = firing_choice(book, sheet, sequent, domain, watch) {
            let disjuncts = rows(&book.disjuncts, sequent.head).len();
            if disjuncts == 0 {
                watch.failed();
                return Outcome::Failed { sequent: index, chosen };
            }
            let free = sequent.free;
            watch.fired(&Firing {
                sequent: index,
                free,
                first_choice,
                disjuncts,
                sequents,
                started,
            });
            return Outcome::Fires { sequent: index, chosen };
        }
    }
    watch.complete();
    Outcome::Complete
}
