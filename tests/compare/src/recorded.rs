//! Recorded answers: plain text, one record a line, read and replayed on the reference, and on a
//! second engine if there is one. How they are made: tests/recorded/README.md.

use crate::judge::Calls;
use reference::calls::{open_with, run_with, step_with, take_with};
use reference::check::check;
use reference::child::Bound;
use reference::listing::{listing, split, LISTING_BUDGET, LISTING_SLOTS};
use reference::plain::PlainPool;
use reference::pool::View;
use reference::sound::broken;
use reference::watch::Silent;
use reference::{VERSION_1, VERSION_1 as LIMITS};
use std::path::Path;

/// A short print of bytes (FNV-1a, 64 bits).
pub fn print(bytes: &[u8]) -> u64 {
    let step = |hash: u64, byte: &u8| (hash ^ *byte as u64).wrapping_mul(0x0100_0000_01b3);
    bytes.iter().fold(0xcbf2_9ce4_8422_2325, step)
}

/// Bytes as hex digits; `-` for none.
pub fn hex(bytes: &[u8]) -> String {
    if bytes.is_empty() {
        return "-".to_string();
    }
    bytes.iter().map(|byte| format!("{byte:02x}")).collect()
}

pub fn unhex(text: &str) -> Vec<u8> {
    if text == "-" {
        return Vec::new();
    }
    let digit = |i: usize| u8::from_str_radix(&text[i..i + 2], 16).expect("two hex digits");
    (0..text.len()).step_by(2).map(digit).collect()
}

/// The four calls of the reference, as an engine.
pub struct Reference;

impl Calls for Reference {
    fn open(&mut self, book: &[u8], pool: &mut [u8], scheduler: u32, strategy: u32) -> u32 {
        open_with(&LIMITS, book, pool, scheduler, strategy)
    }

    fn step(&mut self, book: &[u8], pool: &mut [u8], bound: Bound) -> u32 {
        step_with(&LIMITS, book, pool, bound, &mut Silent)
    }

    fn run(&mut self, book: &[u8], pool: &mut [u8], bound: Bound, budget: u32) -> (u32, u32) {
        run_with(&LIMITS, book, pool, bound, budget, &mut Silent)
    }

    fn take(&mut self, book: &[u8], pool: &mut [u8], list: u32, out: &mut [u8]) -> u32 {
        take_with(&LIMITS, book, pool, list, out)
    }
}

fn read(folder: &Path, file: &str) -> Result<String, String> {
    std::fs::read_to_string(folder.join(file)).map_err(|error| format!("recorded {file}: {error}"))
}

/// The records of a file: lines split at spaces, comments and empty lines left out.
fn records(text: &str) -> impl Iterator<Item = (usize, Vec<&str>)> {
    let lines =
        text.lines().enumerate().filter(|(_, line)| !line.is_empty() && !line.starts_with('#'));
    lines.map(|(at, line)| (at + 1, line.split(' ').collect()))
}

fn number<T: std::str::FromStr>(text: &str) -> T {
    text.parse().unwrap_or_else(|_| panic!("a recorded number: {text}"))
}

/// Replays every file; answers how many records were held against the engine.
pub fn replay(folder: &Path, engine: &mut dyn Calls) -> Result<[usize; 4], String> {
    let listings = replay_listings(&read(folder, "listings.txt")?, engine)?;
    let refusals = replay_refusals(&read(folder, "refusals.txt")?, engine)?;
    let pools = replay_pools(&read(folder, "pools.txt")?, engine)?;
    let unsound = replay_unsound(&read(folder, "unsound.txt")?, engine)?;
    Ok([listings, refusals, pools, unsound])
}

/// The recorded listings: each input with its text.
pub fn listings(folder: &Path) -> Result<Vec<(Vec<u8>, String)>, String> {
    listings_of(&read(folder, "listings.txt")?)
}

/// `input HEX`, then `| ` before each line of the listing.
fn listings_of(text: &str) -> Result<Vec<(Vec<u8>, String)>, String> {
    let listing = |case: &str| {
        let (input, rest) = case.split_once('\n').ok_or("a listing without lines")?;
        let lines = rest.lines().filter_map(|line| line.strip_prefix("| "));
        let recorded: String = lines.map(|line| format!("{line}\n")).collect();
        if recorded.is_empty() {
            return Err(format!("no text is recorded for input {input}"));
        }
        Ok((unhex(input), recorded))
    };
    text.split("\ninput ").skip(1).map(listing).collect()
}

fn replay_listings(text: &str, engine: &mut dyn Calls) -> Result<usize, String> {
    let cases = listings_of(text)?;
    for (count, (input, recorded)) in cases.iter().enumerate() {
        for found in [listing(input), listing_by(engine, input)] {
            if found != *recorded {
                let input = hex(input);
                return Err(format!(
                    "listing {count}: recorded\n{recorded}found\n{found}input {input}"
                ));
            }
        }
    }
    Ok(cases.len())
}

/// What the listing program prints, its calls made by an engine.
fn listing_by(engine: &mut dyn Calls, input: &[u8]) -> String {
    let refused = |number: u32| format!("refused {number}\n");
    let Some((settings, book)) = split(input) else { return refused(2) };
    let mut pool = vec![0; LIMITS.pool(LISTING_SLOTS)];
    let opened = engine.open(book, &mut pool, settings.scheduler, settings.strategy);
    if opened != 0 || settings.fourth != 0 {
        return refused(if opened != 0 { opened } else { 12 });
    }
    let bound = Bound { kind: settings.bound, number: settings.number };
    let (stop, steps) = engine.run(book, &mut pool, bound, LISTING_BUDGET);
    if (1..=13).contains(&stop) {
        return refused(stop);
    }
    PlainPool::read(&pool, &LIMITS).listing(stop, steps)
}

/// `refusal NUMBER PLACE HEX [pad COUNT BYTE]`: a book, its refusal and the place of the fault.
fn replay_refusals(text: &str, engine: &mut dyn Calls) -> Result<usize, String> {
    let mut count = 0;
    for (line, record) in records(text) {
        let (wanted, place): (u32, usize) = (number(record[1]), number(record[2]));
        let mut book = unhex(record[3]);
        if record.len() > 4 {
            book.resize(book.len() + number::<usize>(record[5]), number(record[6]));
        }
        let found = check(&book).map_err(|fault| (fault.number, fault.place));
        if found.as_ref().err() != Some(&(wanted, place)) {
            return Err(format!("refusals.txt line {line}: found {:?}", found.err()));
        }
        refused(&book, wanted, engine)
            .map_err(|text| format!("refusals.txt line {line}: {text}"))?;
        count += 1;
    }
    Ok(count)
}

/// Is a book refused by every call, with its number, and no lent byte touched?
fn refused(book: &[u8], wanted: u32, engine: &mut dyn Calls) -> Result<(), String> {
    let (bound, mut pool, mut out) =
        (Bound { kind: 0, number: 0 }, vec![7; LIMITS.pool(1)], [9; 3]);
    let (stop, steps) = engine.run(book, &mut pool, bound, 1);
    let answers = [
        engine.open(book, &mut pool, 0, 0),
        engine.step(book, &mut pool, bound),
        stop,
        engine.take(book, &mut pool, 0, &mut out),
    ];
    if answers != [wanted; 4] || steps != 0 || out != [9; 3] || pool.iter().any(|&byte| byte != 7) {
        return Err(format!("open, step, run and take answer {answers:?}"));
    }
    Ok(())
}

/// Scripts of calls: `book HEX`, `room BYTES` (a pool of zeros), then calls with their answers and
/// the print of the pool after them; `next NUMBER` sets the pool's next model number by hand.
fn replay_pools(text: &str, engine: &mut dyn Calls) -> Result<usize, String> {
    let (mut book, mut pool, mut count) = (Vec::new(), Vec::new(), 0);
    for (line, record) in records(text) {
        match record[0] {
            "book" => book = unhex(record[1]),
            "room" => pool = vec![0; number(record[1])],
            _ => {
                let found = call(&record, &book, &mut pool, engine);
                if found != record.join(" ") {
                    return Err(format!(
                        "pools.txt line {line}: {}, found {found}",
                        record.join(" ")
                    ));
                }
                count += 1;
            }
        }
    }
    Ok(count)
}

/// Makes the call of a record and writes the record as it should be.
pub fn call(record: &[&str], book: &[u8], pool: &mut [u8], engine: &mut dyn Calls) -> String {
    let given = |place: usize| -> u32 { number(record[place]) };
    match record[0] {
        "open" => {
            let answer = engine.open(book, pool, given(1), given(2));
            format!("open {} {} = {answer} {:016x}", given(1), given(2), print(pool))
        }
        "next" => {
            reference::pool::set_next(pool, given(1));
            format!("next {}", given(1))
        }
        "step" => {
            let bound = Bound { kind: given(1), number: given(2) };
            let answer = engine.step(book, pool, bound);
            format!("step {} {} = {answer} {:016x}", given(1), given(2), print(pool))
        }
        "run" => {
            let bound = Bound { kind: given(1), number: given(2) };
            let (stop, steps) = engine.run(book, pool, bound, given(3));
            let (kind, number, budget, after) = (given(1), given(2), given(3), print(pool));
            format!("run {kind} {number} {budget} = {stop} {steps} {after:016x}")
        }
        _ => {
            let mut out = vec![9; given(2) as usize];
            let answer = engine.take(book, pool, given(1), &mut out);
            let (after, written) = (print(pool), print(&out));
            format!("take {} {} = {answer} {after:016x} {written:016x}", given(1), given(2))
        }
    }
}

/// `clause NAME`, `book HEX`, `length N`, `at OFFSET HEX` for the bytes that are not zero, then
/// `change OFFSET BYTE` for what makes the pool sound, then `end`.
fn replay_unsound(text: &str, engine: &mut dyn Calls) -> Result<usize, String> {
    let (mut name, mut book, mut pool, mut sound) = ("", Vec::new(), Vec::new(), Vec::new());
    let mut seen: Vec<&str> = Vec::new();
    for (_, record) in records(text) {
        match record[0] {
            "clause" => name = record[1],
            "book" => book = unhex(record[1]),
            "length" => pool = vec![0; number(record[1])],
            "at" => {
                let (at, bytes) = (number::<usize>(record[1]), unhex(record[2]));
                pool[at..at + bytes.len()].copy_from_slice(&bytes);
                sound.clone_from(&pool);
            }
            "change" => sound[number::<usize>(record[1])] = number(record[2]),
            _ => {
                unsound_case(name, &book, &pool, &sound, engine)?;
                seen.push(name);
            }
        }
    }
    let missing: Vec<&str> = generator::damage::clauses().filter(|c| !seen.contains(c)).collect();
    if !missing.is_empty() {
        return Err(format!("no unsound pool is recorded for {missing:?}"));
    }
    Ok(seen.len())
}

fn unsound_case(
    name: &str,
    book: &[u8],
    pool: &[u8],
    sound: &[u8],
    engine: &mut dyn Calls,
) -> Result<(), String> {
    let checked = check(book).map_err(|fault| format!("unsound {name}: {fault:?}"))?;
    let clauses = |bytes| broken(&View { bytes, limits: &VERSION_1 }, &checked);
    if clauses(pool) != [name] || !clauses(sound).is_empty() {
        return Err(format!(
            "unsound {name}: breaks {:?}, then {:?}",
            clauses(pool),
            clauses(sound)
        ));
    }
    let bound = Bound { kind: 0, number: 0 };
    let mut lent = pool.to_vec();
    let answer = engine.run(book, &mut lent, bound, 0);
    if answer != (13, 0) || lent != pool {
        return Err(format!("unsound {name}: run answers {answer:?}"));
    }
    let mut out = vec![9; LIMITS.sheet()];
    let answers = [
        engine.step(book, &mut lent, bound),
        engine.take(book, &mut lent, 0, &mut out),
        engine.take(book, &mut lent, 1, &mut out),
    ];
    if answers != [13; 3] || lent != pool || out.iter().any(|&byte| byte != 9) {
        return Err(format!("unsound {name}: step and takes answer {answers:?}"));
    }
    let answer = engine.run(book, &mut sound.to_vec(), bound, 0);
    if answer != (0, 0) {
        return Err(format!("unsound {name}, made sound: run answers {answer:?}"));
    }
    taken_alike(book, sound, engine).map_err(|text| format!("unsound {name}, made sound: {text}"))
}

/// Does an engine take from a sound pool what the reference does?
fn taken_alike(book: &[u8], sound: &[u8], engine: &mut dyn Calls) -> Result<(), String> {
    for list in [0, 1] {
        let mut pools = [sound.to_vec(), sound.to_vec()];
        let mut outs = [vec![9; LIMITS.sheet()], vec![9; LIMITS.sheet()]];
        let wanted = Reference.take(book, &mut pools[0], list, &mut outs[0]);
        let answer = engine.take(book, &mut pools[1], list, &mut outs[1]);
        if answer != wanted || pools[0] != pools[1] || outs[0] != outs[1] {
            return Err(format!("take from list {list} answers {answer}, not {wanted}"));
        }
    }
    Ok(())
}
