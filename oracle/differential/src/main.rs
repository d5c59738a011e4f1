//! Compares the core with the oracle, case by case, in one process.

mod core;

use oracle::cases::{CALLS, Case};
use oracle::{figures, generator};
use std::collections::BTreeMap;
use std::process::ExitCode;
use std::time::{Duration, Instant};

const USAGE: &str =
    "differential [--seconds N] [--calls A,B] [--seed S] [--cases N] [--first yes] [--only I]
  --seconds N   how long in all (60)
  --calls A,B   which calls (all)
  --seed S      of the cases (1)
  --cases N     at most so many cases a call
  --first yes   end at the first difference of a call
  --only I      the case of this index alone, shown whole";

/// The share of the time that each call gets, in the order of `CALLS`.
const WEIGHTS: [f64; 10] = [1.0, 1.0, 4.0, 4.0, 4.0, 4.0, 6.0, 3.0, 4.0, 4.0];

struct Options {
    seconds: f64,
    calls: Vec<usize>,
    seed: u64,
    cases: u64,
    first: bool,
    only: Option<u64>,
}

fn options() -> Result<Options, String> {
    let mut options = Options {
        seconds: 60.0,
        calls: (0..CALLS.len()).collect(),
        seed: 1,
        cases: u64::MAX,
        first: false,
        only: None,
    };
    let words: Vec<String> = std::env::args().skip(1).collect();
    for pair in words.chunks(2) {
        let [name, value] = pair else {
            return Err(String::from(USAGE));
        };
        let number = || value.parse::<u64>().map_err(|_| format!("{name} {value}"));
        match name.as_str() {
            "--seconds" => options.seconds = number()? as f64,
            "--seed" => options.seed = number()?,
            "--cases" => options.cases = number()?,
            "--first" => options.first = value == "yes",
            "--only" => options.only = Some(number()?),
            "--calls" => {
                options.calls = value
                    .split(',')
                    .map(|name| {
                        let call = CALLS.iter().position(|call| *call == name);
                        call.ok_or(format!("no call {name}"))
                    })
                    .collect::<Result<_, _>>()?;
            }
            _ => return Err(String::from(USAGE)),
        }
    }
    Ok(options)
}

/// What was compared of one call.
#[derive(Default)]
struct Counts {
    by_number: BTreeMap<u32, u64>,
    excluded: u64,
    differences: u64,
    first: Option<String>,
}

impl Counts {
    fn compare(&mut self, case: &Case, name: &str) {
        let expected = case.expected();
        *self.by_number.entry(expected.number).or_default() += 1;
        self.excluded += u64::from(case.excluded());
        if let Some(difference) = expected.difference(&core::run(case)) {
            self.differences += 1;
            self.first
                .get_or_insert_with(|| format!("{name}: {difference}\n  input {case:?}"));
        }
    }

    fn total(&self) -> u64 {
        self.by_number.values().sum()
    }
}

fn main() -> ExitCode {
    let options = match options() {
        Ok(options) => options,
        Err(message) => {
            eprintln!("{message}");
            return ExitCode::from(2);
        }
    };
    let weights: f64 = options.calls.iter().map(|call| WEIGHTS[*call]).sum();
    let mut total = 0;
    let mut differences = 0;
    for call in options.calls {
        let mut counts = Counts::default();
        let share = Duration::from_secs_f64(options.seconds * WEIGHTS[call] / weights);
        let start = Instant::now();
        let name = |index: u64| format!("{} seed {} index {index}", CALLS[call], options.seed);
        if let Some(index) = options.only {
            let case = generator::case(options.seed, call, index, generator::WIDE);
            println!(
                "{}\n  input {case:?}\n  expected {:?}",
                name(index),
                case.expected()
            );
            counts.compare(&case, &name(index));
        } else {
            for (i, case) in figures::figures().iter().enumerate() {
                if case.call() == call {
                    counts.compare(case, &format!("{} figure {i}", CALLS[call]));
                }
            }
            let mut index = 0;
            while index < options.cases
                && start.elapsed() < share
                && !(options.first && counts.differences > 0)
            {
                let case = generator::case(options.seed, call, index, generator::WIDE);
                counts.compare(&case, &name(index));
                index += 1;
            }
        }
        print!("{}: {} cases", CALLS[call], counts.total());
        for (number, count) in &counts.by_number {
            print!(", {number}: {count}");
        }
        if counts.excluded > 0 {
            print!("; with an excluded norm: {}", counts.excluded);
        }
        println!("; differences: {}", counts.differences);
        if let Some(first) = &counts.first {
            println!("first difference of {first}");
        }
        total += counts.total();
        differences += counts.differences;
    }
    println!("{total} cases, {differences} differences");
    if differences == 0 {
        ExitCode::SUCCESS
    } else {
        ExitCode::FAILURE
    }
}
