//! The comparisons: books against a peer step by step (`published`), the calls against a second
//! engine or by themselves (`judge`, `scenarios`, `rare`), the exported calls as such an engine
//! (`pipes`), recorded answers (`recorded`), calls written down for a program that makes them
//! again (`tape`), and chains of merges (`chains`).

pub mod chains;
pub mod corners;
pub mod judge;
pub mod peer;
pub mod pipes;
pub mod promises;
pub mod published;
pub mod rare;
pub mod recorded;
pub mod scenarios;
pub mod tape;

use generator::counts::{Counts, EVENTS};
use generator::faults;
use generator::rng::Rng;
use judge::{Calls, Judge};

/// Runs `count` scenarios and `faults_each` faulty books for each refusal at each kind of number.
pub fn judge_calls(
    seed: u64,
    count: u64,
    faults_each: u64,
    other: Option<&mut dyn Calls>,
) -> Result<(Counts, u64), String> {
    judge_share(seed, count, faults_each, (0, 1), other)
}

/// One share of what `judge_calls` runs: from `first` on every so manieth as there are shares.
pub fn judge_share(
    seed: u64,
    count: u64,
    faults_each: u64,
    (first, shares): (u64, u64),
    other: Option<&mut dyn Calls>,
) -> Result<(Counts, u64), String> {
    let mut judge = Judge::new(other);
    for index in (first..count).step_by(shares as usize) {
        let mut rng = Rng::new(seed ^ 0x5e55, index);
        scenarios::scenario(&mut judge, &mut rng)
            .map_err(|text| format!("seed {seed} scenario {index}: {text}"))?;
    }
    for (kind, target) in faults::targets().into_iter().enumerate() {
        for index in (first..faults_each).step_by(shares as usize) {
            let mut rng = Rng::new(seed ^ 0xfa17, index * 1_000 + kind as u64);
            scenarios::book_fault(&mut judge, &mut rng, target)
                .map_err(|text| format!("seed {seed} fault {target:?} {index}: {text}"))?;
        }
    }
    Ok((judge.counts, judge.calls))
}

/// Everything that must be met, by name.
pub fn wanted() -> Vec<String> {
    let events = EVENTS.into_iter().map(|name| name.to_string());
    events.chain(scenarios::names()).collect()
}

/// Says what was met less than `floor` times, or that lowering took more passes than it may; else how
/// many names there are, the least count, and the most passes.
pub fn verdict(counts: &Counts, floor: u64) -> Result<String, String> {
    if counts.lowering.exceeds() {
        return Err(counts.lowering.text());
    }
    let names = wanted();
    let short = counts.short(names.iter().map(|name| name.as_str()), floor);
    if !short.is_empty() {
        let lines: Vec<String> =
            short.iter().map(|(name, count)| format!("\n  {count} of {floor}: {name}")).collect();
        return Err(format!("met too seldom:{}", lines.concat()));
    }
    let all = counts.short(names.iter().map(|name| name.as_str()), u64::MAX);
    let least = all.iter().map(|(_, count)| count).min().copied().unwrap_or(0);
    let most = counts.lowering.text();
    Ok(format!(
        "names to be met {}, each at least {floor} times, the rarest {least}\nat most, {most}",
        names.len()
    ))
}

/// Every count, one a line.
pub fn table(counts: &Counts) -> String {
    counts.met.iter().map(|(name, count)| format!("{count:>10} {name}\n")).collect()
}

/// Half of the books run five steps or more.
pub fn half_run_five(counts: &Counts) -> Result<(), String> {
    let (long, all) = (counts.long_books, counts.books);
    if 2 * long < all {
        return Err(format!("only {long} of {all} books ran five steps or more"));
    }
    Ok(())
}
