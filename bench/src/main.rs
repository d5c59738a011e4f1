//! Times every call of the core beside the Rust that it ports: one process, the same inputs,
//! medians of interleaved rounds. Compares the bits of the answers too. Writes the table of
//! docs/PERFORMANCE.md, unless given `--dry`, or `--only TEXT`, which takes the rows whose name
//! contains the text.
//!
//! The Rust is the copy under oracle/ (its licence is in NOTICE), whose states carry their lowest
//! spot as the core's do. Its parameters, its schedule and its lists of draws are made outside the
//! timed part, and it keeps no observations; the core does all of its work inside the call,
//! questions, conversions and observations included. The library has no down-and-out put, and no
//! mirrored pairs: their rows are the judge's, over the same paths.

mod batches;
#[path = "../../oracle/src/down_and_out.rs"]
mod down_and_out;
mod inputs;
#[allow(dead_code)]
#[path = "../../oracle/src/optionstratlib/mod.rs"]
mod optionstratlib;
#[path = "../../oracle/src/samples.rs"]
mod samples;
mod table;

use batches::batches;
use inputs::{Draws, dec, model, to_params, to_positive, to_rust, to_schedule, window};
use optionstratlib::decimal::decimal_to_f64;
use optionstratlib::quadratic_rough_heston::{
    QuadraticRoughHestonParams, QuadraticRoughHestonPath, Schedule as RustSchedule, Walk,
};
use optionstratlib::quadratic_rough_heston_vix::{
    Matrix, QuadraticRoughHestonVix, squarings_by_log2,
};
use qrh::{Decimal, Schedule, Tables, workspace_length};
use std::process::ExitCode;
use table::Table;

const COUNT: usize = 4096;
const FACTORS: [usize; 3] = [1, 5, 10];
const STEPS: usize = 252;
const USAGE: &str = "bench/run.sh [--dry] [--only TEXT]";

fn conversions(table: &mut Table) {
    // name, scales, sizes in bits
    let classes = [
        ("convert, scale 0, 1 to 53 bits", (0, 0), (1, 53)),
        ("convert, scale 2, 1 to 32 bits", (2, 2), (1, 32)),
        ("convert, scale 4 to 8, 20 to 50 bits", (4, 8), (20, 50)),
        ("convert, scale 13, 64 bits", (13, 13), (64, 64)),
        ("convert, scale 28, 96 bits", (28, 28), (96, 96)),
        ("convert, scale 0 to 28, 1 to 96 bits", (0, 28), (1, 96)),
    ];
    let mut draws = Draws::new(1);
    for (name, scales, sizes) in classes {
        let mut decimal = || {
            let coefficient = draws.coefficient(sizes);
            let scale = draws.within(scales) as u8;
            Decimal::from_parts(draws.within((0, 1)) == 1, coefficient, scale)
                .expect("at most 96 bits")
        };
        let ours: Vec<Decimal> = (0..COUNT).map(|_| decimal()).collect();
        let theirs: Vec<_> = ours.iter().map(|d| to_rust(*d)).collect();
        table.compare(
            name,
            "a Decimal",
            COUNT,
            |out| {
                out.extend(
                    theirs
                        .iter()
                        .map(|d| decimal_to_f64(*d).unwrap_or(f64::NAN)),
                )
            },
            |out| out.extend(ours.iter().map(|d| qrh::convert(*d).unwrap_or(f64::NAN))),
        );
    }
}

fn roots(table: &mut Table) {
    let mut draws = Draws::new(2);
    let values: Vec<f64> = (0..COUNT).map(|_| draws.unit() * 4.0).collect();
    // Each root waits for the one before; the product keeps the operand moving.
    let chain = |root: fn(f64) -> f64| values.iter().fold(1.0, |x, value| root(x * value + 0.5));
    table.compare(
        "sqrt, one after another",
        "a root",
        COUNT,
        |out| out.push(chain(f64::sqrt)),
        |out| {
            out.push(chain(qrh::sqrt));
        },
    );
    table.compare(
        "sqrt, side by side",
        "a root",
        COUNT,
        |out| out.extend(values.iter().map(|value| value.sqrt())),
        |out| out.extend(values.iter().map(|value| qrh::sqrt(*value))),
    );
}

/// The Rust's trace, into tables reserved as the library reserves them: the copy under oracle/ lets
/// them grow.
fn rust_trace(
    params: &QuadraticRoughHestonParams,
    schedule: &RustSchedule,
    draws: &[f64],
) -> QuadraticRoughHestonPath {
    let (points, n) = (draws.len() + 1, params.kernel().factors());
    let table = || Vec::with_capacity(points);
    let mut path = QuadraticRoughHestonPath {
        spot: table(),
        variance: table(),
        z: table(),
        factors: Vec::with_capacity(points * n),
    };
    let mut walk = Walk::new(params, &[]);
    let mut record = |walk: &Walk| {
        path.spot.push(walk.state.spot);
        path.variance.push(walk.state.variance);
        path.z.push(walk.state.z);
        path.factors.extend_from_slice(&walk.state.factors);
    };
    record(&walk);
    for segment in &schedule.segments {
        for to in segment.first_step..=segment.last_step {
            assert!(
                walk.apply(segment.sqrt_dt * draws[to - 1], segment.dt, to)
                    .is_ok(),
                "a finite step"
            );
            record(&walk);
        }
    }
    path
}

fn traces(table: &mut Table) {
    let steps = STEPS;
    let schedule = Schedule::from([(dec("0.001"), steps as u32)]);
    let rust_schedule = to_schedule(&schedule);
    for n in FACTORS {
        let draws = Draws::new(3).normals(steps);
        let model = model(n);
        let params = to_params(&model);
        let mut spots = vec![0.0; steps + 1];
        let (mut variances, mut z, mut factors) =
            (spots.clone(), spots.clone(), vec![0.0; (steps + 1) * n]);
        table.compare(
            format!("trace, n = {n}"),
            "a step",
            steps,
            |out| {
                let path = rust_trace(&params, &rust_schedule, &draws);
                out.extend([
                    path.spot[steps],
                    path.variance[steps],
                    path.z[steps],
                    path.factors[steps * n],
                ]);
            },
            |out| {
                let tables = Tables {
                    spots: &mut spots,
                    variances: &mut variances,
                    z: &mut z,
                    factors: &mut factors,
                };
                qrh::trace(&model, &schedule, &draws, tables).expect("a path");
                out.extend([spots[steps], variances[steps], z[steps], factors[steps * n]]);
            },
        );
    }
}

/// The dimension of ten factors.
const WHOLE: usize = 67;

/// The last rows and columns of the matrix of ten factors: such a block takes as many squarings as
/// the whole.
fn last_block(matrix: &[f64], dimension: usize) -> Vec<f64> {
    let rows = matrix.chunks_exact(WHOLE).skip(WHOLE - dimension);
    rows.flat_map(|row| row[WHOLE - dimension..].to_vec())
        .collect()
}

fn exponentials(table: &mut Table) {
    let model = model(10);
    let params = to_params(&model);
    let delta = qrh::convert(window()).expect("a window");
    let generator = QuadraticRoughHestonVix::generator(&params, delta)
        .expect("a generator")
        .entries;
    let mut output = vec![0.0; generator.len()];
    let mut workspace = vec![0.0; workspace_length(10)];
    for dimension in [4, 7, 12, 20, 33, WHOLE] {
        let entries = dimension * dimension;
        let input = last_block(&generator, dimension);
        table.compare(
            format!("exponential, dimension {dimension}"),
            "a call",
            1,
            |out| {
                let matrix = Matrix::from_entries(dimension, &input);
                let exponential = matrix
                    .exponential(squarings_by_log2)
                    .expect("memory")
                    .expect("a finite norm");
                out.extend_from_slice(&exponential.entries);
            },
            |out| {
                let (output, workspace) = (&mut output[..entries], &mut workspace[..5 * entries]);
                qrh::exponential(dimension, &input, output, workspace).expect("a finite norm");
                out.extend_from_slice(output);
            },
        );
    }
    let factors: Vec<_> = model
        .factors
        .iter()
        .map(|factor| to_rust(*factor))
        .collect();
    table.compare(
        "VIX evaluation, n = 10",
        "a call",
        1,
        |out| {
            let vix =
                QuadraticRoughHestonVix::try_new(&params, to_positive(window()), squarings_by_log2);
            out.push(vix.and_then(|vix| vix.at(&factors)).expect("an index"));
        },
        |out| {
            out.push(
                qrh::vix(&model, window(), &model.factors, &mut workspace)
                    .expect("an index")
                    .index,
            )
        },
    );
}

/// Which rows are wanted, by a part of their names, and whether the table is to be written.
fn asked() -> Option<(String, bool)> {
    let words: Vec<String> = std::env::args().skip(1).collect();
    let words: Vec<&str> = words.iter().map(String::as_str).collect();
    match words[..] {
        [] => Some((String::new(), true)),
        ["--dry"] => Some((String::new(), false)),
        ["--only", text] | ["--dry", "--only", text] => Some((text.to_string(), false)),
        _ => None,
    }
}

fn main() -> ExitCode {
    let Some((only, written)) = asked() else {
        eprintln!("{USAGE}");
        return ExitCode::from(2);
    };
    let mut table = Table::new(only);
    conversions(&mut table);
    roots(&mut table);
    traces(&mut table);
    exponentials(&mut table);
    batches(&mut table);
    if table.differing > 0 {
        println!("{} answers differ", table.differing);
        return ExitCode::FAILURE;
    }
    if written {
        table.write("docs/PERFORMANCE.md");
    }
    ExitCode::SUCCESS
}
