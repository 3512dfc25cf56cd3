//! Makes what `crates/evaluates` is run on: books with a lone sheet and a strategy, and what fires
//! there by the reference. First the corners under both strategies; then refused records; then
//! records of a seed, those that meet a name that few before them met.
//!
//! `sheets FOLDER [SEED] [COUNT] [TIMES]` writes FOLDER/stdin and FOLDER/stdout with COUNT records,
//! and prints how often each name is met. TIMES is how often a name is met before records that meet
//! no other are passed over. A name that is never met is an error.

mod names;

use compare::corners::{corners, Corner};
use generator::draft::{Draft, Literal, Sequent, Term};
use generator::faults::{faulty, targets};
use generator::pools::{pool_bytes, sheet, sheet_bytes, Header};
use generator::rng::Rng;
use generator::shapes::{book, long_book};
use names::{met, Names, Seen};
use reference::calls::{chase_open, chase_run};
use reference::check::check;
use reference::evaluate::{evaluate, Outcome};
use reference::plain::{PlainPool, PlainSheet};
use reference::pool::{View, WAITING};
use reference::sheet::Sheet;
use reference::sound::sound;
use reference::watch::Silent;
use reference::{Book, VERSION_1 as LIMITS};
use std::collections::BTreeSet;
use std::path::Path;

/// Records of a seed that are tried, and the bytes that one may cost.
const TRIED: u64 = 40_000;
const COSTLY: usize = 900;
/// They are gone through three times: each name is to be met by so manieth of TIMES, then by more.
const ROUNDS: [u64; 3] = [8, 3, 1];

/// Where head, keys, facts and depths of a sheet begin, and where it ends.
const PARTS: [usize; 5] = [0, 16, 1_040, 2_064, 2_128];

/// A record: which strategy, and the bytes of a book and of a sheet.
struct Record {
    strategy: u8,
    draft: Option<Draft>,
    book: Vec<u8>,
    slot: Vec<u8>,
}

impl Record {
    fn new(strategy: u8, draft: &Draft, sheet: &PlainSheet) -> Self {
        let slot = sheet_bytes(sheet, &LIMITS);
        Record { strategy, draft: Some(draft.clone()), book: draft.bytes(), slot }
    }

    /// The bytes of the record, as the program reads them.
    fn bytes(&self) -> Vec<u8> {
        let mut bytes = vec![self.strategy, 0, 0, 0];
        bytes.extend_from_slice(&(self.book.len() as u32).to_le_bytes());
        let parts: Vec<&[u8]> =
            PARTS.windows(2).map(|ends| used(&self.slot[ends[0]..ends[1]])).collect();
        parts.iter().for_each(|part| bytes.extend_from_slice(&(part.len() as u16).to_le_bytes()));
        bytes.extend_from_slice(&self.book);
        parts.iter().for_each(|part| bytes.extend_from_slice(part));
        bytes
    }
}

/// A part without the zeros at its end.
fn used(part: &[u8]) -> &[u8] {
    &part[..part.iter().rposition(|&byte| byte != 0).map_or(0, |last| last + 1)]
}

/// Is a lone sheet sound for a book? Asked of a pool under Fair whose one sheet it is.
fn lone_sound(book: &Book, slot: &[u8]) -> bool {
    let alone = PlainPool { lists: [vec![PlainSheet::default()], vec![], vec![]] };
    let header = Header { scheduler: 0, strategy: 1, next: 65_536 };
    let mut pool = pool_bytes(&alone, header, 1, &LIMITS);
    let first = pool.len() - LIMITS.sheet();
    pool[first..].copy_from_slice(slot);
    sound(&View { bytes: &pool, limits: &LIMITS }, book, &mut Sheet::new())
}

/// The line that the program prints for a record, and the names that the record meets.
fn line(record: &Record) -> (String, Vec<String>) {
    let refused = |text: &str| (text.to_string(), vec![text.to_string()]);
    if record.strategy > 1 {
        return refused("strategy not known");
    }
    match check(&record.book) {
        Err(fault) => {
            let (text, names) = refused(&format!("book refused {}", fault.number));
            (format!("{text} at {}", fault.place), names)
        }
        Ok(book) if lone_sound(&book, &record.slot) => evaluated(record, &book),
        Ok(_) => refused("sheet not sound"),
    }
}

/// The same, of a record that passes the checks.
fn evaluated(record: &Record, book: &Book) -> (String, Vec<String>) {
    let (mut sheet, mut domain) = (Sheet::new(), Vec::new());
    sheet.load(&record.slot, &LIMITS);
    let (linear, place) = (record.strategy == 0, sheet.place as usize);
    if linear {
        sheet.place = 0; // Linear begins at sequent 0, wherever the sheet says it stands
    }
    sheet.domain(&mut domain);
    let fired = match evaluate(book, &sheet, &domain, &mut Silent) {
        Outcome::Complete => None,
        Outcome::Fires { sequent, chosen } | Outcome::Failed { sequent, chosen } => {
            let free = book.sequents[sequent].free as usize;
            Some((sequent, chosen[..free].to_vec()))
        }
    };
    let text = match &fired {
        None => "nothing fires".to_string(),
        Some((sequent, choice)) => {
            let choice: String = choice.iter().map(|element| format!(" {element}")).collect();
            format!("fires {sequent} at{choice}")
        }
    };
    (text, met(&Seen { draft: record.draft.as_ref(), linear, place, domain: &domain, fired }))
}

/// A sheet that a run of a few steps leaves waiting, if there is one.
fn met_by_run(rng: &mut Rng, draft: &Draft) -> Option<PlainSheet> {
    let (book, mut pool) = (draft.bytes(), vec![0; LIMITS.pool(12)]);
    chase_open(&book, &mut pool, rng.below(2) as u32, rng.below(2) as u32);
    chase_run(&book, &mut pool, 2, rng.below(4) as u32, rng.below(8) as u32);
    let waiting = PlainPool::read(&pool, &LIMITS).lists[WAITING].clone();
    (!waiting.is_empty()).then(|| waiting[rng.below(waiting.len())].clone())
}

/// A sequent whose body says that a nested term over its variables is one of them, if a function has
/// arguments. Books of `shapes` seldom have a nested term in a body that is observed.
fn deep(rng: &mut Rng, draft: &Draft) -> Option<Sequent> {
    let free = rng.range(1, 3) as u16;
    let over: Vec<u16> = (0..draft.functions.len() as u16)
        .filter(|&function| draft.functions[function as usize] > 0)
        .collect();
    if over.is_empty() {
        return None;
    }
    let variable = |rng: &mut Rng| Term::Variable(rng.below(free as usize) as u16);
    let applied = |rng: &mut Rng, inner: Option<Term>| {
        let function = rng.pick(&over);
        let arity = draft.functions[function as usize];
        let mut terms: Vec<Term> = (0..arity).map(|_| variable(rng)).collect();
        if let Some(inner) = inner {
            terms[rng.below(arity as usize)] = inner;
        }
        Term::Application(function, terms)
    };
    let inner = applied(rng, None);
    let (outer, same) = (applied(rng, Some(inner)), variable(rng));
    Some(Sequent { free, body: vec![Literal::Identity(outer, same)], head: vec![] })
}

/// A record of a seed: a random book; a sheet by hand or out of a run, at a random place; and in
/// one of twelve a byte of the sheet changed.
fn random(rng: &mut Rng) -> Option<Record> {
    let mut draft = book(rng);
    if rng.odds(1, 4) {
        let place = rng.below(draft.sequents.len() + 1);
        let sequent = deep(rng, &draft)?;
        draft.sequents.insert(place, sequent);
    }
    let checked = check(&draft.bytes()).ok()?;
    let mut sheet = match rng.odds(1, 2) {
        true => {
            let most = rng.below(7);
            sheet(rng, &checked, most)
        }
        false => met_by_run(rng, &draft)?,
    };
    sheet.number = rng.below(65_536) as u64;
    sheet.place = rng.below(checked.sequents.len().max(1));
    let mut record = Record::new(rng.below(2) as u8, &draft, &sheet);
    if rng.odds(1, 12) {
        let at = rng.below(4);
        let at = PARTS[at] + rng.below(16.min(PARTS[at + 1] - PARTS[at]));
        record.slot[at] = rng.byte();
    }
    Some(record)
}

/// Records that are refused: a book for every refusal, a strategy that is not known, a slot of ones.
fn refused(seed: u64) -> Vec<Record> {
    let (mut records, empty) = (Vec::new(), PlainSheet::default());
    for (index, target) in targets().into_iter().enumerate() {
        let mut rng = Rng::new(seed, index as u64);
        let tried = (0..1_000).find_map(|_| {
            let draft = book(&mut rng);
            faulty(&mut rng, &draft, target).filter(|(bytes, _)| bytes.len() < COSTLY)
        });
        if let Some((book, _)) = tried {
            let slot = sheet_bytes(&empty, &LIMITS);
            records.push(Record { strategy: 0, draft: None, book, slot });
        }
    }
    let draft = book(&mut Rng::new(seed, 0));
    let slot = sheet_bytes(&empty, &LIMITS);
    records.push(Record { strategy: 1, draft: None, book: vec![0; 32_769], slot });
    for strategy in [2, 255] {
        records.push(Record::new(strategy, &draft, &empty));
    }
    let mut ones = Record::new(0, &draft, &empty);
    ones.slot.fill(1);
    records.push(ones);
    records
}

/// Under Fair at the last place of a book of many sequents.
fn long(seed: u64) -> Vec<Record> {
    let mut rng = Rng::new(seed, 1);
    let draft = long_book(&mut rng);
    let Ok(checked) = check(&draft.bytes()) else { return vec![] };
    let mut sheet = sheet(&mut rng, &checked, 4);
    sheet.place = checked.sequents.len() - 1;
    let mut records = vec![Record::new(1, &draft, &sheet)];
    sheet.place += 1;
    records.push(Record::new(1, &draft, &sheet));
    records
}

/// What is written down.
#[derive(Default)]
struct Kept {
    input: Vec<u8>,
    lines: Vec<String>,
    names: Names,
}

impl Kept {
    fn keep(&mut self, bytes: &[u8], line: String, met: &[String]) {
        self.names.add(met);
        self.input.extend_from_slice(bytes);
        self.lines.push(line);
    }
}

/// The records, their lines, and how often each name is met.
fn records(seed: u64, count: usize, times: u64) -> Kept {
    let mut kept = Kept::default();
    let both = |corner: &Corner| [0, 1].map(|s| Record::new(s, &corner.draft, &corner.start));
    let first = corners().iter().flat_map(both).collect::<Vec<Record>>();
    for record in first.iter().chain(&refused(seed)).chain(&long(seed)) {
        let (text, met) = line(record);
        kept.keep(&record.bytes(), text, &met);
    }
    let mut taken = BTreeSet::new();
    for part in ROUNDS {
        for index in 0..TRIED {
            let Some(record) = random(&mut Rng::new(seed, index)) else { continue };
            let ((text, met), bytes) = (line(&record), record.bytes());
            let wanted = bytes.len() <= COSTLY && kept.names.want(&met, times.div_ceil(part));
            if wanted && kept.lines.len() < count && taken.insert(index) {
                kept.keep(&bytes, text, &met);
            }
        }
    }
    kept
}

fn make(folder: &Path, seed: u64, count: usize, times: u64) -> Result<(), String> {
    let Kept { input, mut lines, names } = records(seed, count, times);
    println!("records {}", lines.len());
    for (name, times) in names.all() {
        println!("{times:>6} {name}");
    }
    if let Some((name, _)) = names.all().find(|(_, times)| **times == 0) {
        return Err(format!("never met: {name}"));
    }
    lines.push(format!("end after {}", lines.len()));
    let printed = lines.join("\n") + "\n";
    println!("bytes: stdin {}, stdout {}", input.len(), printed.len());
    let write = |name: &str, bytes: &[u8]| std::fs::write(folder.join(name), bytes);
    write("stdin", &input)
        .and_then(|()| write("stdout", printed.as_bytes()))
        .map_err(|error| format!("{}: {error}", folder.display()))
}

fn main() {
    let given: Vec<String> = std::env::args().skip(1).collect();
    let number = |place: usize| given.get(place).and_then(|text| text.parse().ok());
    let Some(folder) = given.first() else {
        eprintln!("usage: sheets FOLDER [SEED] [COUNT] [TIMES]");
        std::process::exit(2);
    };
    let (seed, count, times) =
        (number(1).unwrap_or(1), number(2).unwrap_or(600), number(3).unwrap_or(40));
    if let Err(text) = make(Path::new(folder), seed, count as usize, times) {
        eprintln!("sheets: {text}");
        std::process::exit(1);
    }
}
