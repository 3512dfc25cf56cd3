//! The reference against the exported calls: answers, pool bytes and output bytes, refused calls
//! and damaged pools included, and the recorded answers replayed on the calls.
//!
//! `calls RECORDED SEED SCENARIOS FAULTS FLOOR THREADS COMMAND..`: RECORDED is the folder of
//! recorded answers; FAULTS is how many faulty books are made for each refusal at each kind of
//! number; FLOOR is how often each name must be met at least; COMMAND starts the driver
//! (tests/calls/driver.c), once for each thread.

use compare::judge::Judge;
use compare::pipes::Driver;
use compare::recorded::replay;
use generator::counts::Counts;
use std::path::Path;
use std::time::Instant;

/// What is to be run.
#[derive(Clone, Copy)]
struct Wanted {
    seed: u64,
    scenarios: u64,
    faults: u64,
    floor: u64,
    threads: u64,
}

fn main() {
    let words: Vec<String> = std::env::args().skip(1).collect();
    let number = |place: usize| words.get(place).and_then(|text| text.parse::<u64>().ok());
    let numbers: Option<Vec<u64>> = (1..6).map(number).collect();
    let (Some(numbers), true) = (numbers, words.len() > 6) else {
        eprintln!("usage: calls RECORDED SEED SCENARIOS FAULTS FLOOR THREADS COMMAND..");
        std::process::exit(2);
    };
    let [seed, scenarios, faults, floor, threads] = numbers[..] else { unreachable!() };
    let wanted = Wanted { seed, scenarios, faults, floor, threads: threads.max(1) };
    if let Err(text) = compare_calls(Path::new(&words[0]), wanted, &words[6..]) {
        eprintln!("{text}");
        std::process::exit(1);
    }
}

fn compare_calls(folder: &Path, wanted: Wanted, command: &[String]) -> Result<(), String> {
    let begun = Instant::now();
    let mut driver = start(command)?;
    let [listings, refusals, calls, unsound] = replay(folder, &mut driver)?;
    println!(
        "recorded listings {listings}, refusals {refusals}, calls {calls}, unsound pools {unsound}"
    );
    let rare = compare::rare::steps(&mut Judge::new(Some(&mut driver)))?;
    println!("rare steps {rare}");
    let replayed = driver.calls;
    driver.end().map_err(|error| error.to_string())?;
    let (counts, calls) = judge_all(wanted, command)?;
    println!("exported calls made {}, no difference", replayed + calls);
    let (books, long) = (counts.books, counts.long_books);
    println!("scenarios {}, calls {calls}, steps {}", wanted.scenarios, counts.steps);
    println!("books run {books}, five steps or more {long}");
    println!("{}", compare::verdict(&counts, wanted.floor)?);
    compare::half_run_five(&counts)?;
    println!("seconds {:.1}", begun.elapsed().as_secs_f64());
    Ok(())
}

fn start(command: &[String]) -> Result<Driver, String> {
    Driver::start(command).map_err(|error| format!("the driver does not start: {error}"))
}

/// Every share on its thread, with a driver of its own.
fn judge_all(wanted: Wanted, command: &[String]) -> Result<(Counts, u64), String> {
    std::thread::scope(|scope| {
        let share = |first| scope.spawn(move || judge_share(wanted, first, command));
        let shares: Vec<_> = (0..wanted.threads).map(share).collect();
        let (mut counts, mut calls) = (Counts::default(), 0);
        for share in shares {
            let (more, made) = share.join().expect("a thread ends")?;
            counts.join(&more);
            calls += made;
        }
        Ok((counts, calls))
    })
}

fn judge_share(wanted: Wanted, first: u64, command: &[String]) -> Result<(Counts, u64), String> {
    let Wanted { seed, scenarios, faults, threads, .. } = wanted;
    let mut driver = start(command)?;
    let (counts, calls) =
        compare::judge_share(seed, scenarios, faults, (first, threads), Some(&mut driver))?;
    if driver.calls != calls {
        return Err(format!("{calls} calls judged, but {} made by the driver", driver.calls));
    }
    driver.end().map_err(|error| error.to_string())?;
    Ok((counts, calls))
}
