//! The listing program's input and output (01 "Corners", at the end).

use crate::calls::{chase_open, chase_run, chase_step};
use crate::check::check;
use crate::limits::VERSION_1;
use crate::plain::PlainPool;

pub const LISTING_SLOTS: usize = 12;
pub const LISTING_BUDGET: u32 = 1_000;

/// The eight bytes of settings.
#[derive(Clone, Copy, Debug, PartialEq, Eq)]
pub struct Settings {
    pub scheduler: u32,
    pub strategy: u32,
    pub bound: u32,
    pub fourth: u8,
    pub number: u32,
}

/// Splits an input into its settings and its book; none under 8 bytes.
pub fn split(input: &[u8]) -> Option<(Settings, &[u8])> {
    let (first, book) = input.split_at_checked(8)?;
    let settings = Settings {
        scheduler: first[0] as u32,
        strategy: first[1] as u32,
        bound: first[2] as u32,
        fourth: first[3],
        number: u32::from_le_bytes(first[4..8].try_into().unwrap()),
    };
    Some((settings, book))
}

/// The refusal of an input, if it has one: under 8 bytes 2, then the book's, then 12.
pub fn refusal(input: &[u8]) -> Option<u32> {
    let Some((settings, book)) = split(input) else { return Some(2) };
    if let Err(fault) = check(book) {
        return Some(fault.number);
    }
    let known = settings.scheduler <= 1
        && settings.strategy <= 1
        && settings.bound <= 3
        && settings.fourth == 0
        && (settings.bound != 0 || settings.number == 0);
    (!known).then_some(12)
}

/// An opened pool of the listing's size, for an input that is not refused.
fn opened(settings: Settings, book: &[u8]) -> Vec<u8> {
    let mut pool = vec![0; VERSION_1.pool(LISTING_SLOTS)];
    chase_open(book, &mut pool, settings.scheduler, settings.strategy);
    pool
}

/// What the listing program prints.
pub fn listing(input: &[u8]) -> String {
    if let Some(number) = refusal(input) {
        return format!("refused {number}\n");
    }
    let (settings, book) = split(input).unwrap();
    let mut pool = opened(settings, book);
    let (stop, steps) = chase_run(book, &mut pool, settings.bound, settings.number, LISTING_BUDGET);
    PlainPool::read(&pool, &VERSION_1).listing(stop, steps)
}

/// Every sheet after every step, one state after the other.
pub fn states(input: &[u8]) -> String {
    if let Some(number) = refusal(input) {
        return format!("refused {number}\n");
    }
    let (settings, book) = split(input).unwrap();
    let mut pool = opened(settings, book);
    let mut text = format!("step 0\n{}", PlainPool::read(&pool, &VERSION_1).text());
    for step in 1..=LISTING_BUDGET {
        let stop = chase_step(book, &mut pool, settings.bound, settings.number);
        if stop != 0 {
            text.push_str(&format!("stop {stop}\n"));
            return text;
        }
        text.push_str(&format!("step {step}\n"));
        text.push_str(&PlainPool::read(&pool, &VERSION_1).text());
    }
    text.push_str("stop 0\n");
    text
}
