//! Makes the recorded answers again: `record FOLDER SEED` writes listings.txt (the published
//! Rust's, and the reference's where a limit or a refusal is met), refusals.txt, pools.txt and
//! unsound.txt into FOLDER. What stands in them: tests/recorded/README.md.

use compare::judge::sparse;
use compare::published::random_bound;
use compare::recorded::{call, hex, Reference};
use generator::counts::Counts;
use generator::damage::{self, Damaged, Sound};
use generator::faults;
use generator::rng::Rng;
use generator::{pools, shapes};
use published::show;
use reference::calls::step_with;
use reference::check::check;
use reference::child::Bound;
use reference::listing::{listing, split};
use reference::{chase_open, chase_run, VERSION_1};
use std::fmt::Write;
use std::path::Path;

const LISTINGS: usize = 200;
const LIMITED: usize = 16;
/// Choices that a recorded run may take.
const CHOICES: u64 = 20_000;
/// How many of the listings meet an event, before others are preferred.
const EACH: u64 = 12;
const SCRIPTS: usize = 60;

fn main() {
    let folder = std::env::args().nth(1);
    let seed = std::env::args().nth(2).and_then(|text| text.parse().ok());
    let (Some(folder), Some(seed)) = (folder, seed) else {
        eprintln!("usage: record FOLDER SEED");
        std::process::exit(2);
    };
    let folder = Path::new(&folder);
    let write = |file: &str, text: String| {
        std::fs::write(folder.join(file), text).expect("the folder can be written");
    };
    write("listings.txt", listings(seed));
    write("refusals.txt", refusals(seed));
    write("pools.txt", scripts(seed));
    write("unsound.txt", unsound(seed));
}

/// A random input of the listing program.
fn input(rng: &mut Rng) -> Vec<u8> {
    let bound = random_bound(rng);
    let mut input = vec![rng.below(2) as u8, rng.below(2) as u8, bound.kind as u8, 0];
    input.extend_from_slice(&bound.number.to_le_bytes());
    input.extend_from_slice(&shapes::book(rng).bytes());
    input
}

/// What the run of an input meets, its stop and its steps; none if it takes many choices.
fn met(input: &[u8]) -> Option<(Counts, u32, u32)> {
    let (settings, book) = split(input).expect("an input of our own");
    let mut pool = vec![0; VERSION_1.pool(12)];
    chase_open(book, &mut pool, settings.scheduler, settings.strategy);
    let mut counts = Counts::default();
    counts.begin(&check(book).expect("a shaped book"), settings.strategy == 1);
    let bound = Bound { kind: settings.bound, number: settings.number };
    for steps in 0..200 {
        match step_with(&VERSION_1, book, &mut pool, bound, &mut counts) {
            0 if counts.choices > CHOICES => return None,
            0 => {}
            stop => return Some((counts, stop, steps)),
        }
    }
    None
}

/// Does the input meet an event that the inputs before it met too seldom?
fn adds(tally: &mut Counts, counts: &Counts) -> bool {
    let seldom = |name: &String| tally.met.get(name).copied().unwrap_or(0) < EACH;
    let wanted = counts.met.keys().any(seldom);
    if wanted {
        counts.met.keys().for_each(|name| tally.add(name));
    }
    wanted
}

fn case(text: &mut String, input: &[u8], listed: &str) {
    let _ = writeln!(text, "input {}", hex(input));
    listed.lines().for_each(|line| writeln!(text, "| {line}").unwrap());
    text.push('\n');
}

fn listings(seed: u64) -> String {
    let mut text = String::from("# Listings of the published Rust.\n\n");
    let (mut made, mut limited, mut index) = (0, String::new(), 0);
    let (mut limits_met, mut tally) = (0, Counts::default());
    while made < LISTINGS {
        let mut rng = Rng::new(seed ^ 0x115, index);
        let input = input(&mut rng);
        index += 1;
        if input.len() > 700 {
            continue;
        }
        let Some((counts, stop, steps)) = met(&input) else { continue };
        let own = listing(&input);
        if own.len() > 1_400 {
            continue;
        }
        if stop == 14 && steps >= 3 && (adds(&mut tally, &counts) || rng.odds(1, 12)) {
            let theirs = show::text(&input, false).expect("a run of few choices");
            assert_eq!(theirs, own, "a difference at index {index}");
            case(&mut text, &input, &theirs);
            made += 1;
        } else if stop > 14 && limits_met < LIMITED {
            case(&mut limited, &input, &own);
            limits_met += 1;
        }
    }
    text.push_str(
        "# Listings of the reference: a limit is met, and the published Rust has none.\n\n",
    );
    text.push_str(&limited);
    text.push_str("# And refusals: too short an input, unknown settings, a fault in the book.\n\n");
    refused_inputs(&mut text, &mut Rng::new(seed, 5));
    text
}

fn refused_inputs(text: &mut String, rng: &mut Rng) {
    let good = {
        let mut good = vec![0; 8];
        good.extend_from_slice(&generator::draft::Draft::default().bytes());
        good
    };
    let changes: [(usize, u8); 6] = [(0, 2), (1, 2), (2, 4), (3, 1), (4, 1), (7, 255)];
    case(text, &good, &listing(&good));
    for (place, byte) in changes {
        let mut bad = good.clone();
        bad[place] = byte;
        case(text, &bad, &listing(&bad));
        bad.push(rng.byte());
        case(text, &bad, &listing(&bad));
    }
    for length in [0, 7, 8, 10, good.len() - 1] {
        case(text, &good[..length], &listing(&good[..length]));
    }
}

/// The smallest of some books with each fault.
fn refusals(seed: u64) -> String {
    let mut text =
        String::from("# Books with one fault: refusal, number, place of the fault, bytes.\n");
    for (kind, target) in faults::targets().into_iter().enumerate() {
        let mut rng = Rng::new(seed ^ 0x4ef, kind as u64);
        let tries = (0..60).filter_map(|_| {
            let draft =
                if rng.odds(1, 2) { faults::full(&mut rng) } else { shapes::book(&mut rng) };
            faults::faulty(&mut rng, &draft, target)
        });
        let mut found: Vec<_> = tries.collect();
        found.sort_by_key(|(bytes, _)| bytes.len());
        for (bytes, fault) in found.into_iter().take(3) {
            let (number, place) = (fault.number, fault.place);
            let end = bytes.last().copied().unwrap_or(0);
            let kept = bytes.len() - bytes.iter().rev().take_while(|&&byte| byte == end).count();
            let padding = bytes.len() - kept;
            if padding > 1_000 {
                let start = hex(&bytes[..kept]);
                let _ = writeln!(text, "refusal {number} {place} {start} pad {padding} {end}");
            } else {
                let _ = writeln!(text, "refusal {number} {place} {}", hex(&bytes));
            }
        }
    }
    text
}

/// Scripts of calls on a pool of zeros, with answers and prints of the bytes after them.
fn scripts(seed: u64) -> String {
    let mut text = String::from("# Calls with their answers and prints of pool and output.\n");
    for index in 0..SCRIPTS as u64 {
        let mut rng = Rng::new(seed ^ 0x5c4, index);
        let book = shapes::book(&mut rng).bytes();
        let mut pool = vec![0; VERSION_1.pool(rng.pick(&[1, 2, 3, 5, 12]))];
        let _ = writeln!(text, "\nbook {}\nroom {}", hex(&book), pool.len());
        let mut made = vec![format!("open {} {}", rng.below(2), rng.below(2))];
        if rng.odds(1, 4) {
            made.push(format!("next {}", rng.range(65_534, 65_536)));
        }
        for _ in 0..rng.range(4, 9) {
            let bound = random_bound(&mut rng);
            let (kind, number) = (bound.kind, bound.number);
            made.push(match rng.below(4) {
                0 => format!("step {kind} {number}"),
                1 | 2 => format!("run {kind} {number} {}", rng.pick(&[0, 1, 4, 9, 1_000])),
                _ => format!("take {} {}", rng.below(2), rng.pick(&[2_127, 2_128, 2_140])),
            });
        }
        for line in made {
            let record: Vec<&str> = line.split(' ').collect();
            let _ = writeln!(text, "{}", call(&record, &book, &mut pool, &mut Reference));
        }
    }
    text
}

/// For each clause, of many pools that break it alone, one with the smallest change to a sound one.
fn unsound(seed: u64) -> String {
    let mut text =
        String::from("# For each clause a pool that breaks it alone, and what makes it sound.\n");
    for (kind, clause) in damage::clauses().enumerate() {
        let tries = (0..400).filter_map(|index| {
            let mut rng = Rng::new(seed ^ 0x0dd, 1_000 * kind as u64 + index);
            let book = shapes::book(&mut rng).bytes();
            let checked = check(&book).expect("a shaped book");
            let (_, _, mut pool) = pools::pool(&mut rng, &checked, 4, 1, &VERSION_1);
            chase_run(&book, &mut pool, 0, 0, rng.below(3) as u32);
            damage::damage(&mut rng, &Sound { book, pool }, clause, &VERSION_1)
        });
        let least = tries.min_by_key(|d| (changes(d).len(), d.book.len() + sparse(&d.pool).len()));
        let damaged = least.unwrap_or_else(|| panic!("no pool breaks {clause} alone"));
        let _ = writeln!(text, "\nclause {clause}\nbook {}", hex(&damaged.book));
        let _ = writeln!(text, "{}", sparse(&damaged.pool));
        for (at, byte) in repair(&damaged) {
            let _ = writeln!(text, "change {at} {byte}");
        }
        let _ = writeln!(text, "end");
    }
    text
}

/// The smallest change that makes a damaged pool sound: one byte if any does, else what was
/// damaged.
fn repair(damaged: &Damaged) -> Vec<(usize, u8)> {
    let own: Vec<(usize, u8)> =
        changes(damaged).into_iter().map(|at| (at, damaged.sound[at])).collect();
    if own.len() == 1 {
        return own;
    }
    let book = check(&damaged.book).expect("a book of our own");
    let mut pool = damaged.pool.clone();
    let mut sheet = reference::sheet::Sheet::new();
    for at in 0..pool.len() {
        let before = pool[at];
        for byte in 0..=255 {
            pool[at] = byte;
            let view = reference::pool::View { bytes: &pool, limits: &VERSION_1 };
            if reference::sound::sound(&view, &book, &mut sheet) {
                return vec![(at, byte)];
            }
        }
        pool[at] = before;
    }
    own
}

/// The bytes in which a damaged pool differs from its sound one.
fn changes(damaged: &Damaged) -> Vec<usize> {
    let all = 0..damaged.pool.len();
    all.filter(|&at| damaged.pool[at] != damaged.sound[at]).collect()
}
