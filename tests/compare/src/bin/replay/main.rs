//! Makes what `crates/replaycalls` is run on: calls with the reference's answers and the sums of
//! the buffers after them. First the cases at the boundaries, each by its name; then what is
//! recorded (refused books, scripts of calls, each clause of soundness broken and mended); then
//! scenarios of a seed, those that meet a name that few before them met.
//!
//! `replay FOLDER RECORDED [SEED] [TIMES] [all]` writes FOLDER/stdin and FOLDER/stdout, and prints
//! the line of each named case. TIMES is how often each name is to be met. Without `all` only open
//! and take are written down, and the reference makes the steps and runs between them.

mod boundaries;
mod cases;
mod chains;
mod edges;
mod steps;

use compare::judge::Judge;
use compare::recorded::replay;
use compare::scenarios::scenario;
use compare::tape::Tape;
use generator::counts::Counts;
use generator::rng::Rng;
use std::path::Path;

/// Records of books and pools that cost more bytes than this are left out, but for boundaries.
const COSTLY: usize = 3_000;
/// Scenarios that are tried, and the bytes that one may cost the first time and the second.
const TRIED: u64 = 10_000;
const ROUNDS: [usize; 2] = [1_200, usize::MAX];

/// The names that scenarios are to meet: all but the refusals of books, which are recorded.
fn wanted() -> Vec<String> {
    let of_books = |name: &str| {
        let answer = name.split_once(" answers ").and_then(|(_, answer)| answer.parse().ok());
        name.starts_with("book refusal") || matches!(answer, Some(1..=10u32))
    };
    compare::wanted().into_iter().filter(|name| !of_books(name)).collect()
}

fn short(met: &Counts, times: u64) -> Vec<(String, u64)> {
    met.short(wanted().iter().map(|name| name.as_str()), times)
}

/// Writes down scenarios of the seed until each name is met; answers how many they are.
fn scenarios(tape: &mut Tape, seed: u64, times: u64) -> Result<(u64, Counts), String> {
    let (mut met, mut kept) = (Counts::default(), 0);
    for (most, index) in ROUNDS.into_iter().flat_map(|most| (0..TRIED).map(move |i| (most, i))) {
        let missing = short(&met, times);
        if missing.is_empty() {
            break;
        }
        let mut alone = Judge::new(None);
        scenario(&mut alone, &mut Rng::new(seed, index))?;
        if !missing.iter().any(|(name, _)| alone.counts.met.contains_key(name)) {
            continue;
        }
        let mut longer = tape.clone();
        scenario(&mut Judge::new(Some(&mut longer)), &mut Rng::new(seed, index))?;
        if longer.input.len() - tape.input.len() <= most {
            *tape = longer;
            met.join(&alone.counts);
            kept += 1;
        }
    }
    Ok((kept, met))
}

fn make(folder: &Path, recorded: &Path, seed: u64, times: u64, all: bool) -> Result<(), String> {
    let mut tape = Tape::new(all);
    for (line, name) in boundaries::write(&mut tape)? {
        println!("{line:>5} {name}");
    }
    let named = tape.records;
    tape.most = COSTLY;
    replay(recorded, &mut tape)?;
    let with_recorded = tape.records;
    let (kept, met) = scenarios(&mut tape, seed, times)?;
    if let Some((name, count)) = short(&met, times).first() {
        return Err(format!("met {count} times by scenarios, not {times}: {name}"));
    }
    println!("calls: at boundaries {named}, recorded {}", with_recorded - named);
    println!("calls of {kept} scenarios {}", tape.records - with_recorded);
    let printed = tape.printed();
    println!("bytes: stdin {}, stdout {}", tape.input.len(), printed.len());
    let write = |name: &str, bytes: &[u8]| std::fs::write(folder.join(name), bytes);
    write("stdin", &tape.input)
        .and_then(|()| write("stdout", printed.as_bytes()))
        .map_err(|error| format!("{}: {error}", folder.display()))
}

fn main() {
    let given: Vec<String> = std::env::args().skip(1).collect();
    let all = given.iter().any(|word| word == "all");
    let number = |place: usize| given.get(place).and_then(|text| text.parse().ok());
    let (Some(folder), Some(recorded)) = (given.first(), given.get(1)) else {
        eprintln!("usage: replay FOLDER RECORDED [SEED] [TIMES] [all]");
        std::process::exit(2);
    };
    let (seed, times) = (number(2).unwrap_or(1), number(3).unwrap_or(2));
    if let Err(text) = make(Path::new(folder), Path::new(recorded), seed, times, all) {
        eprintln!("{text}");
        std::process::exit(1);
    }
}
