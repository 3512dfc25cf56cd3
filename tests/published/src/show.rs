//! What the published Rust prints for a listing input, within a time limit: it takes microseconds
//! for a choice.
//!
//! It has no limits of its own: it stops with 14 or when the budget is spent. Refusals are the
//! reference's, since the published Rust has no books.

use crate::{machine, read};
use reference::listing::{refusal, split, LISTING_BUDGET};
use std::time::{Duration, Instant};

/// After this time no further step is begun.
const TIME: Duration = Duration::from_secs(60);

/// The listing of an input, or with `every_step` every sheet after every step; an error if the
/// time limit is met.
pub fn text(input: &[u8], every_step: bool) -> Result<String, String> {
    if let Some(number) = refusal(input) {
        return Ok(format!("refused {number}\n"));
    }
    let begun = Instant::now();
    let (settings, book) = split(input).unwrap();
    let sequents = read::sequents(book);
    let mut machine = machine::open(&sequents, settings.scheduler, settings.strategy);
    let mut text = String::new();
    let mut show = |step: u32, machine: &dyn machine::Steps| {
        if every_step {
            text.push_str(&format!("step {step}\n{}", machine.state().text()));
        }
    };
    show(0, &*machine);
    let mut steps = 0;
    let mut stop = 0;
    while steps < LISTING_BUDGET {
        if begun.elapsed() > TIME {
            return Err(format!("time limit met after {steps} steps"));
        }
        if !machine.step(settings.bound, settings.number) {
            stop = 14;
            break;
        }
        steps += 1;
        show(steps, &*machine);
    }
    if every_step {
        text.push_str(&format!("stop {stop}\n"));
        Ok(text)
    } else {
        Ok(machine.state().listing(stop, steps))
    }
}
