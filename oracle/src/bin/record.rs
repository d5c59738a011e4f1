//! Writes the recorded cases, shows them, or checks a file against the oracle.

use oracle::cases::{CALLS, Case, Outcome, show};
use oracle::{figures, generator, records};
use std::collections::BTreeMap;
use std::error::Error;
use std::fs;

const USAGE: &str = "record write FILE [--calls A,B] [--most N] [--seed S]
record show FILE
record check FILE";

fn main() -> Result<(), Box<dyn Error>> {
    let arguments: Vec<String> = std::env::args().skip(1).collect();
    let words: Vec<&str> = arguments.iter().map(String::as_str).collect();
    match words.as_slice() {
        ["write", file, options @ ..] => write(file, options),
        ["show", file] => show_all(&load(file)?),
        ["check", file] => check(&load(file)?),
        _ => Err(USAGE.into()),
    }
}

/// How many indices of a call are looked at.
const LOOKED_AT: u64 = 20_000;

/// The figures, then generated cases: of each number that a call gives the first `most`, more of 0
/// and 22, and the first answered one with ten factors; of the answered down-and-out puts mostly
/// those with a price above zero. Cases that are too long, and those whose norm is outside the
/// comparison, are left out.
fn write(file: &str, options: &[&str]) -> Result<(), Box<dyn Error>> {
    let mut calls: Vec<usize> = (0..CALLS.len()).collect();
    let mut most = 6;
    let mut seed = 1;
    for option in options.chunks(2) {
        match option {
            ["--calls", names] => {
                calls = names
                    .split(',')
                    .map(|name| CALLS.iter().position(|call| *call == name))
                    .collect::<Option<Vec<usize>>>()
                    .ok_or("no such call")?;
            }
            ["--most", number] => most = number.parse()?,
            ["--seed", number] => seed = number.parse()?,
            _ => return Err(USAGE.into()),
        }
    }
    let mut recorded: Vec<(Case, Outcome)> = Vec::new();
    for case in figures::figures() {
        if calls.contains(&case.call()) {
            let outcome = case.expected();
            recorded.push((case, outcome));
        }
    }
    for call in calls {
        let mut kept: BTreeMap<(u32, bool), usize> = BTreeMap::new();
        let mut ten = false;
        for index in 0..LOOKED_AT {
            let case = records::trimmed(generator::case(seed, call, index, generator::SMALL));
            if !records::fits(&case) || case.excluded() {
                continue;
            }
            let outcome = case.expected();
            let worthless =
                matches!(call, 8 | 9) && outcome.number == 0 && outcome.values[0] == 0.0;
            let limit = match (outcome.number, call) {
                (0, 0 | 1) => 40 * most,
                (0, 7) => 15 * most,
                (0, _) if worthless => most,
                (0, 8 | 9) => 8 * most,
                (0 | 22, _) => 5 * most,
                _ => most,
            };
            let so_far = kept.entry((outcome.number, worthless)).or_default();
            let first_ten = !ten && outcome.number == 0 && factors(&case) == 10;
            ten |= first_ten;
            if *so_far < limit || first_ten {
                *so_far += 1;
                recorded.push((case, outcome));
            }
        }
    }
    let words = records::write(&recorded);
    let bytes: Vec<u8> = words.iter().flat_map(|word| word.to_le_bytes()).collect();
    fs::write(file, &bytes)?;
    counts(&recorded);
    println!("{} cases, {} bytes", recorded.len(), bytes.len());
    Ok(())
}

/// The number of factors of a case over a model, 0 of another.
fn factors(case: &Case) -> usize {
    match case {
        Case::Trace { model, .. }
        | Case::Vanilla { model, .. }
        | Case::Vix { model, .. }
        | Case::VixBatch { model, .. } => model.weights.len(),
        _ => 0,
    }
}

fn load(file: &str) -> Result<Vec<(Case, Outcome)>, Box<dyn Error>> {
    let bytes = fs::read(file)?;
    let words = bytes
        .chunks(8)
        .map(|word| word.try_into().map(u64::from_le_bytes));
    let words: Vec<u64> = words
        .collect::<Result<_, _>>()
        .map_err(|_| "not a whole number of words")?;
    Ok(records::read(&words)?)
}

fn show_all(recorded: &[(Case, Outcome)]) -> Result<(), Box<dyn Error>> {
    for (i, (case, outcome)) in recorded.iter().enumerate() {
        println!("case {}: {} {case:?}", i + 1, CALLS[case.call()]);
        println!("    number {} place {:?}", outcome.number, outcome.place);
        for value in &outcome.values {
            println!("    {}", show(*value));
        }
        println!("    counts {:?}", outcome.counts);
        for table in &outcome.tables {
            println!("    table {table:?}");
        }
    }
    Ok(())
}

fn check(recorded: &[(Case, Outcome)]) -> Result<(), Box<dyn Error>> {
    for (i, (case, outcome)) in recorded.iter().enumerate() {
        if let Some(difference) = case.expected().difference(outcome) {
            return Err(format!("case {}: {difference}\n{case:?}", i + 1).into());
        }
    }
    counts(recorded);
    println!("{} cases, none differs", recorded.len());
    Ok(())
}

fn counts(recorded: &[(Case, Outcome)]) {
    for (call, name) in CALLS.iter().enumerate() {
        let mut by_number: BTreeMap<u32, usize> = BTreeMap::new();
        for (_, outcome) in recorded.iter().filter(|(case, _)| case.call() == call) {
            *by_number.entry(outcome.number).or_default() += 1;
        }
        if !by_number.is_empty() {
            println!("{name}: {by_number:?}");
        }
    }
}
