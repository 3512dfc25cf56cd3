//! The long comparison: the published Rust against the reference, step by step, on random books;
//! then the scenarios of calls, with every count at its floor.
//!
//! `against SEED COUNT [THREADS] [FLOOR]`: COUNT books of SEED; FLOOR is how often each event
//! must be met at least, one in a hundred books if it is not given.

use compare::published::{compare_books, Report};
use generator::counts::Counts;
use published::peer::Published;
use std::process::exit;
use std::time::Instant;

fn number(place: usize) -> Option<u64> {
    std::env::args().nth(place)?.parse().ok()
}

/// Compares the books on some threads, each with every so manieth book.
fn compare_all(seed: u64, count: u64, threads: u64) -> Report {
    std::thread::scope(|scope| {
        let worker = |first: u64| {
            let indices = (first..count).step_by(threads as usize);
            scope.spawn(move || compare_books(&Published, seed, indices))
        };
        let workers: Vec<_> = (0..threads).map(worker).collect();
        let mut all = Report::default();
        workers.into_iter().for_each(|w| all.join(w.join().expect("a worker ends")));
        all
    })
}

/// The scenarios of calls on the reference, and the verdict on all counts.
fn the_rest(seed: u64, count: u64, floor: u64, mut counts: Counts) -> Result<(), String> {
    compare::half_run_five(&counts)?;
    let (others, calls) = compare::judge_calls(seed, (3 * count).max(20_000), floor, None)?;
    println!("calls in scenarios {calls}");
    compare::half_run_five(&others)?;
    counts.join(&others);
    print!("{}", compare::table(&counts));
    println!("{}", compare::verdict(&counts, floor)?);
    Ok(())
}

fn main() {
    let (Some(seed), Some(count)) = (number(1), number(2)) else {
        eprintln!("usage: against SEED COUNT [THREADS] [FLOOR]");
        exit(2);
    };
    let threads = number(3).unwrap_or(1).max(1);
    let floor = number(4).unwrap_or(count / 100).max(1);
    let begun = Instant::now();
    let report = compare_all(seed, count, threads);
    report.print();
    println!("seconds {:.1}", begun.elapsed().as_secs_f64());
    if let Some(difference) = &report.difference {
        eprintln!("{difference}");
        exit(1);
    }
    if let Err(text) = the_rest(seed, count, floor, report.counts) {
        eprintln!("{text}");
        exit(1);
    }
    println!("seconds {:.1}", begun.elapsed().as_secs_f64());
}
