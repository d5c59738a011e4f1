//! The comparison of two passes, and the table of the results.

use std::fmt::Write;
use std::fs;
use std::hint::black_box;
use std::time::{Duration, Instant};

const ROUNDS: usize = 15;

/// The least length of a round of one side.
const ROUND: Duration = Duration::from_millis(20);

const BEGIN: &str = "<!-- bench/run.sh writes from here -->\n";
const END: &str = "<!-- to here -->\n";

/// Nanoseconds for one of `per`, on either side.
struct Row {
    name: String,
    per: &'static str,
    rust: f64,
    core: f64,
}

pub struct Table {
    only: String,
    rows: Vec<Row>,
    pub differing: usize,
}

fn median(mut values: Vec<f64>) -> f64 {
    values.sort_by(f64::total_cmp);
    values[values.len() / 2]
}

/// One side: what it does in one pass, and where a pass leaves its answer.
struct Side<F> {
    pass: F,
    out: Vec<f64>,
    times: Vec<f64>,
}

impl<F: FnMut(&mut Vec<f64>)> Side<F> {
    fn new(pass: F) -> Self {
        Self {
            pass,
            out: Vec::new(),
            times: Vec::new(),
        }
    }

    /// The nanoseconds of a pass, over several.
    fn time(&mut self, passes: usize) -> f64 {
        let begin = Instant::now();
        for _ in 0..passes {
            self.out.clear();
            (self.pass)(black_box(&mut self.out));
            black_box(&self.out);
        }
        begin.elapsed().as_nanos() as f64 / passes as f64
    }

    fn round(&mut self, passes: usize) {
        let time = self.time(passes);
        self.times.push(time);
    }

    fn bits(&self) -> Vec<u64> {
        self.out.iter().map(|value| value.to_bits()).collect()
    }
}

impl Table {
    /// Of the rows whose names contain `only`.
    pub fn new(only: String) -> Self {
        println!(
            "{:<40} {:>12} {:>12} {:>7}",
            "nanoseconds", "Rust", "core", "ratio"
        );
        Self {
            only,
            rows: Vec::new(),
            differing: 0,
        }
    }

    /// Times two passes of `count` units each, in turn, and compares what they leave.
    pub fn compare(
        &mut self,
        name: impl Into<String>,
        per: &'static str,
        count: usize,
        rust: impl FnMut(&mut Vec<f64>),
        core: impl FnMut(&mut Vec<f64>),
    ) {
        let name = name.into();
        if !name.contains(&self.only) {
            return;
        }
        let (mut rust, mut core) = (Side::new(rust), Side::new(core));
        let passes = |time: f64| (ROUND.as_nanos() as f64 / time).ceil() as usize;
        // The first pass of either warms up.
        rust.time(1);
        core.time(1);
        let (rust_passes, core_passes) = (passes(rust.time(1)), passes(core.time(1)));
        for i in 0..ROUNDS {
            if i % 2 == 0 {
                rust.round(rust_passes);
                core.round(core_passes);
            } else {
                core.round(core_passes);
                rust.round(rust_passes);
            }
        }
        if rust.bits() != core.bits() {
            println!("{name}: the answers differ");
            self.differing += 1;
        }
        let units = count as f64;
        let row = Row {
            name,
            per,
            rust: median(rust.times) / units,
            core: median(core.times) / units,
        };
        let (rust, core) = (written(row.rust), written(row.core));
        println!(
            "{:<40} {rust:>12} {core:>12} {:>7.2}   {}",
            row.name,
            row.core / row.rust,
            row.per
        );
        self.rows.push(row);
    }

    /// Puts the table between its two marks in a file.
    pub fn write(&self, path: &str) {
        let text =
            fs::read_to_string(path).expect("docs/PERFORMANCE.md, from the repository's root");
        let (before, rest) = text.split_once(BEGIN).expect("the first mark");
        let (_, after) = rest.split_once(END).expect("the second mark");
        let mut table = String::from(
            "| call | Rust, ns | core, ns | ratio | for |\n|---|---:|---:|---:|---|\n",
        );
        for Row {
            name,
            per,
            rust,
            core,
        } in &self.rows
        {
            let ratio = core / rust;
            let (rust, core) = (written(*rust), written(*core));
            writeln!(table, "| {name} | {rust} | {core} | {ratio:.2} | {per} |").expect("a string");
        }
        fs::write(
            path,
            format!(
                "{before}{BEGIN}\n{table}\nOn {}, with {}.\n{END}{after}",
                machine(),
                kit()
            ),
        )
        .expect("the file");
        println!("{path} has the table");
    }
}

/// With one decimal place; from a thousand on, whole and in groups of three digits.
fn written(nanoseconds: f64) -> String {
    if nanoseconds < 1000.0 {
        return format!("{nanoseconds:.1}");
    }
    let digits = format!("{nanoseconds:.0}");
    let mut text = String::new();
    for (i, digit) in digits.chars().enumerate() {
        if i > 0 && (digits.len() - i) % 3 == 0 {
            text.push(',');
        }
        text.push(digit);
    }
    text
}

/// The toolchain that proved and built the core, as the file `toolchain` names it.
fn kit() -> String {
    let line = fs::read_to_string("toolchain").expect("the file toolchain, at the root");
    line.split_whitespace().next().unwrap_or("?").to_owned()
}

/// The processor's name.
fn machine() -> String {
    fs::read_to_string("/proc/cpuinfo")
        .ok()
        .and_then(|text| {
            let line = text.lines().find(|line| line.starts_with("model name"))?;
            Some(line.split_once(':')?.1.trim().to_string())
        })
        .unwrap_or_else(|| String::from("a processor without a name"))
}
