//! The short comparison: needs nothing outside the repository. Scenarios of calls and faulty books
//! on the reference, with every count met, and the recorded answers replayed.
//!
//! `compare RECORDED [SEED] [SCENARIOS] [FLOOR]`: RECORDED is the folder of recorded answers; FLOOR
//! is how often each name must be met at least, once if it is not given.

use compare::recorded::{replay, Reference};
use std::path::Path;
use std::time::Instant;

fn main() {
    let number = |place: usize| std::env::args().nth(place).and_then(|text| text.parse().ok());
    let Some(folder) = std::env::args().nth(1) else {
        eprintln!("usage: compare RECORDED [SEED] [SCENARIOS] [FLOOR]");
        std::process::exit(2);
    };
    let (seed, scenarios) = (number(2).unwrap_or(1), number(3).unwrap_or(20_000));
    if let Err(text) = short(Path::new(&folder), seed, scenarios, number(4).unwrap_or(1)) {
        eprintln!("{text}");
        std::process::exit(1);
    }
}

fn short(folder: &Path, seed: u64, scenarios: u64, floor: u64) -> Result<(), String> {
    let begun = Instant::now();
    let [listings, refusals, calls, unsound] = replay(folder, &mut Reference)?;
    println!(
        "recorded listings {listings}, refusals {refusals}, calls {calls}, unsound pools {unsound}"
    );
    let (counts, calls) = compare::judge_calls(seed, scenarios, floor.max(20), None)?;
    let (books, long) = (counts.books, counts.long_books);
    println!("scenarios {scenarios}, calls {calls}, steps {}", counts.steps);
    println!("books run {books}, five steps or more {long}");
    println!("{}", compare::verdict(&counts, floor)?);
    compare::half_run_five(&counts)?;
    println!("seconds {:.1}", begun.elapsed().as_secs_f64());
    Ok(())
}
