//! Engines that are wrong on purpose are caught by the judge: document 01's five useless ones,
//! and some that err in one respect.

use compare::judge::{Calls, Judge};
use compare::recorded::Reference;
use compare::{judge_calls, verdict};
use reference::child::Bound;
use reference::watch::Watch;

/// The reference with one thing spoilt.
struct Spoilt {
    how: How,
    steps: u64,
}

#[derive(Clone, Copy, PartialEq)]
enum How {
    Not,
    RefusesAll,
    FixedAnswer,
    NoStep,
    OneStepThenPretends,
    InventsSteps,
    WritesWhenRefused,
    ForgetsSoundness,
    TakesWithoutFreeing,
    DomainSizeOneMore,
}

impl Calls for Spoilt {
    fn open(&mut self, book: &[u8], pool: &mut [u8], scheduler: u32, strategy: u32) -> u32 {
        match self.how {
            How::RefusesAll => 13,
            How::FixedAnswer => 0,
            _ => Reference.open(book, pool, scheduler, strategy),
        }
    }

    fn step(&mut self, book: &[u8], pool: &mut [u8], bound: Bound) -> u32 {
        self.steps += 1;
        match self.how {
            How::RefusesAll => 13,
            How::FixedAnswer => 0,
            How::NoStep => Reference.step(book, &mut pool.to_vec(), bound),
            How::OneStepThenPretends if self.steps > 1 => {
                Reference.step(book, &mut pool.to_vec(), bound)
            }
            How::WritesWhenRefused => {
                let answer = Reference.step(book, pool, bound);
                if answer == 15 {
                    pool[16] ^= 1;
                }
                answer
            }
            How::ForgetsSoundness => match Reference.step(book, pool, bound) {
                13 => 0,
                other => other,
            },
            How::DomainSizeOneMore if bound.kind == 1 && bound.number < 9 => {
                Reference.step(book, pool, Bound { kind: 1, number: bound.number + 1 })
            }
            _ => Reference.step(book, pool, bound),
        }
    }

    fn run(&mut self, book: &[u8], pool: &mut [u8], bound: Bound, budget: u32) -> (u32, u32) {
        match self.how {
            How::RefusesAll => (13, 0),
            How::FixedAnswer => (0, 0),
            How::NoStep => Reference.run(book, &mut pool.to_vec(), bound, budget),
            How::InventsSteps => {
                let (stop, steps) = Reference.run(book, pool, bound, budget);
                (stop, if steps > 2 { budget } else { steps })
            }
            _ => Reference.run(book, pool, bound, budget),
        }
    }

    fn take(&mut self, book: &[u8], pool: &mut [u8], list: u32, out: &mut [u8]) -> u32 {
        match self.how {
            How::RefusesAll => 13,
            How::FixedAnswer => 0,
            How::TakesWithoutFreeing => Reference.take(book, &mut pool.to_vec(), list, out),
            _ => Reference.take(book, pool, list, out),
        }
    }
}

fn caught(how: How) -> bool {
    judge_calls(3, 600, 1, Some(&mut Spoilt { how, steps: 0 })).is_err()
}

#[test]
fn the_reference_itself_is_not_caught() {
    assert!(!caught(How::Not));
}

#[test]
fn useless_engines_are_caught() {
    let ways = [
        How::RefusesAll,
        How::FixedAnswer,
        How::NoStep,
        How::OneStepThenPretends,
        How::InventsSteps,
    ];
    assert!(ways.into_iter().all(caught));
}

#[test]
fn small_errors_are_caught() {
    assert!(caught(How::WritesWhenRefused));
    assert!(caught(How::ForgetsSoundness));
    assert!(caught(How::TakesWithoutFreeing));
    assert!(caught(How::DomainSizeOneMore));
}

#[test]
fn more_passes_than_elements_are_caught() {
    let mut judge = Judge::new(None);
    let mut call = |passes: usize| {
        judge.counts.lowering_done(passes, 9, 3);
        judge.step(&[], &mut [0; 3], Bound { kind: 0, number: 0 })
    };
    assert_eq!(call(3), Ok(2));
    assert!(call(4).is_err_and(|text| text.contains("4 passes over the keys of 3 elements")));
    assert!(verdict(&judge.counts, 0).is_err());
}
