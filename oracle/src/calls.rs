//! The outer calls, each with the full answer that is expected for any input: values from the
//! copied Rust, numbers, places and lent tables from `questions`. Where the Rust judges too (a path
//! that stops, a VIX that is not positive, moments that are not finite), both must agree: that is
//! asserted, in every build but those of tests/planted.sh.

use crate::cases::Terms;
use crate::down_and_out::price_down_and_out;
use crate::edge::{
    self, Conversion, Estimate, Exponentiation, Factors, Tracing, VixEstimate, VixPayoff, VixValue,
};
use crate::optionstratlib::decimal::decimal_to_f64;
use crate::optionstratlib::error::QuadraticRoughHestonError;
use crate::optionstratlib::quadratic_rough_heston::{
    QuadraticRoughHestonKernel, QuadraticRoughHestonParams, Schedule, Segment, State, Walk,
    price_vanilla_quadratic_rough_heston, run_paths, simulate_quadratic_rough_heston_path,
};
use crate::optionstratlib::quadratic_rough_heston_vix::{
    Matrix, QuadraticRoughHestonVix, QuadraticRoughHestonVixPayoff,
    price_vix_quadratic_rough_heston, squarings_by_log2,
};
use crate::optionstratlib::stand_in::{Decimal, OptionStyle, Positive};
use crate::questions::{self, Asked, No, Seen, Taken, TraceTables};
use std::num::NonZeroUsize;

/// Whether two doubles have the same bits, any NaN being as any other.
#[must_use]
pub fn same(left: f64, right: f64) -> bool {
    left.to_bits() == right.to_bits() || (left.is_nan() && right.is_nan())
}

fn same_tables(left: &[f64], right: &[f64]) -> bool {
    left.len() == right.len() && left.iter().zip(right).all(|(l, r)| same(*l, *r))
}

fn decimal(d: edge::Decimal) -> Decimal {
    let coefficient = u128::from(d.high) << 64 | u128::from(d.low);
    Decimal::new(d.negative, coefficient, d.scale)
}

fn positive(d: edge::Decimal) -> Positive {
    Positive::new_decimal(decimal(d)).expect("asked by then")
}

fn style(put: bool) -> OptionStyle {
    if put {
        OptionStyle::Put
    } else {
        OptionStyle::Call
    }
}

/// The Rust's parameters, of inputs that passed the door.
fn params(weights: &[f64], discounts: &[f64], model: &edge::Model) -> QuadraticRoughHestonParams {
    QuadraticRoughHestonParams::try_new(
        decimal(model.a),
        decimal(model.b),
        decimal(model.c),
        decimal(model.lambda),
        decimal(model.eta),
        QuadraticRoughHestonKernel::from_tables(weights, discounts),
        model.factors[..model.factor_count]
            .iter()
            .map(|factor| decimal(*factor))
            .collect(),
        positive(model.spot),
    )
    .expect("asked by then")
}

/// The Rust's schedule, of inputs that passed the door.
fn lay(given: &edge::Schedule) -> Schedule {
    let segments: Vec<(Decimal, usize)> = given.segments[..given.count]
        .iter()
        .map(|segment| (decimal(segment.dt), segment.steps as usize))
        .collect();
    Schedule::from_segments(&segments).expect("asked by then")
}

fn containing(schedule: &Schedule, step: u64) -> &Segment {
    schedule
        .segments
        .iter()
        .find(|segment| (segment.first_step..=segment.last_step).contains(&(step as usize)))
        .expect("a segment contains each step")
}

fn seen(state: &State) -> Seen {
    Seen {
        spot: state.spot,
        z: state.z,
        variance: state.variance,
    }
}

/// The Rust's own stop must be that of the questions.
fn assert_stop(taken: &Taken, error: &QuadraticRoughHestonError) {
    let refused = taken.refused.expect("the Rust stopped");
    match error {
        QuadraticRoughHestonError::NonFinite { quantity, step } => {
            let named = ["spot", "z", "variance"]
                .iter()
                .position(|name| name == quantity)
                .expect("a quantity of the state");
            debug_assert_eq!(refused.place[1], *step as u64);
            debug_assert_eq!(refused.place[2], named as u64 + 1);
        }
        other => panic!("the Rust refused: {other:?}"),
    }
}

/// Convert a Decimal.
#[must_use]
pub fn convert(d: edge::Decimal) -> Conversion {
    match questions::scale(d) {
        Err(No { number, place }) => Conversion {
            number,
            place,
            ..Default::default()
        },
        Ok(()) => {
            let value = decimal_to_f64(decimal(d)).expect("asked by then");
            // The library says that it is the double that the same digits parse to.
            debug_assert_eq!(
                format!("{}e-{}", decimal(d).mantissa(), d.scale).parse(),
                Ok(value)
            );
            Conversion {
                value,
                ..Default::default()
            }
        }
    }
}

/// Take a square root.
#[must_use]
pub fn sqrt(value: f64) -> f64 {
    value.sqrt()
}

/// Trace one path.
#[allow(clippy::too_many_arguments)]
pub fn trace(
    weights: &[f64],
    discounts: &[f64],
    model: &edge::Model,
    given: &edge::Schedule,
    draws: &[f64],
    spots: &mut [f64],
    variances: &mut [f64],
    z: &mut [f64],
    factors: &mut [f64],
) -> Tracing {
    let lengths = [spots.len(), variances.len(), z.len(), factors.len()];
    let asked = questions::trace(weights, discounts, model, given, draws.len(), lengths);
    let ends = match asked {
        Ok(ends) => ends,
        Err(No { number, place }) => {
            return Tracing {
                number,
                place,
                steps: 0,
            };
        }
    };
    let params = params(weights, discounts, model);
    let schedule = lay(given);
    let mut walk = Walk::new(&params, draws);
    let mut tables = TraceTables {
        spots,
        variances,
        z,
        factors,
    };
    let taken = questions::trace_steps(ends[ends.len() - 1], &mut tables, |step| {
        if step > 0 {
            let segment = containing(&schedule, step);
            let dw = segment.sqrt_dt * draws[step as usize - 1];
            let _ = walk.apply(dw, segment.dt, step as usize);
        }
        (seen(&walk.state), walk.state.factors.clone())
    });

    match simulate_quadratic_rough_heston_path(&params, &schedule, draws) {
        Ok(path) => {
            debug_assert!(taken.refused.is_none());
            debug_assert!(same_tables(tables.spots, &path.spot));
            debug_assert!(same_tables(tables.variances, &path.variance));
            debug_assert!(same_tables(tables.z, &path.z));
            debug_assert!(same_tables(tables.factors, &path.factors));
        }
        Err(error) => assert_stop(&taken, &error),
    }
    let (number, place) = taken
        .refused
        .map_or((0, [0; 4]), |no| (no.number, no.place));
    Tracing {
        number,
        place,
        steps: taken.steps,
    }
}

/// The spots of one path whose inputs pass the door, the start's first, as far as its steps are
/// finite.
#[must_use]
pub fn spots(
    weights: &[f64],
    discounts: &[f64],
    model: &edge::Model,
    given: &edge::Schedule,
    draws: &[f64],
) -> Vec<f64> {
    let params = params(weights, discounts, model);
    let schedule = lay(given);
    let mut walk = Walk::new(&params, &[]);
    let mut spots = vec![walk.state.spot];
    for (i, draw) in draws.iter().enumerate() {
        let segment = containing(&schedule, i as u64 + 1);
        if walk
            .apply(segment.sqrt_dt * draw, segment.dt, i + 1)
            .is_err()
        {
            break;
        }
        spots.push(walk.state.spot);
    }
    spots
}

/// The draws of each path: in a mirrored batch path 2i takes those of path 2i - 1 negated.
fn draws_by_path(draws: &[f64], total: u64, mirrored: bool) -> Vec<Vec<f64>> {
    let mut lists = Vec::new();
    for list in draws.chunks_exact(total as usize) {
        lists.push(list.to_vec());
        if mirrored {
            lists.push(list.iter().map(|draw| -draw).collect());
        }
    }
    lists
}

/// Runs an admitted batch, step by step, and writes its observations; then the Rust's `run_paths`
/// over the same draws must agree, in the lowest spot of each path too.
fn run_batch(
    params: &QuadraticRoughHestonParams,
    schedule: &Schedule,
    ends: &[u64],
    draws: &[Vec<f64>],
    table: &mut [f64],
    observe: impl Fn(&State) -> f64 + Sync,
) -> Taken {
    let mut walk = Walk::new(params, &[]);
    let paths = draws.len();
    let mut lowest = vec![walk.state.spot; paths];
    let taken = questions::batch_steps(paths as u64, ends, table, |path, step| {
        if step == 1 {
            walk = Walk::new(params, &[]);
        }
        let segment = containing(schedule, step);
        let dw = segment.sqrt_dt * draws[path as usize - 1][step as usize - 1];
        let _ = walk.apply(dw, segment.dt, step as usize);
        let so_far = &mut lowest[path as usize - 1];
        if walk.state.spot < *so_far {
            *so_far = walk.state.spot;
        }
        (seen(&walk.state), observe(&walk.state))
    });

    let runs = run_paths(
        params,
        schedule,
        NonZeroUsize::new(paths).expect("asked by then"),
        draws,
        |_, state: &State, (observed, lowest): &mut (Vec<f64>, f64)| {
            observed.push(observe(state));
            *lowest = state.lowest;
        },
    );
    match runs {
        Ok(runs) => {
            debug_assert!(taken.refused.is_none());
            let (observed, carried): (Vec<Vec<f64>>, Vec<f64>) =
                runs.into_iter().map(|run| run.observed).unzip();
            debug_assert!(same_tables(table, &observed.concat()));
            // Either zero is as the other.
            debug_assert_eq!(lowest, carried);
        }
        Err(error) => assert_stop(&taken, &error),
    }
    taken
}

/// Price a batch on the spot, mirrored or not.
#[allow(clippy::too_many_arguments)]
pub fn vanilla(
    mirrored: bool,
    weights: &[f64],
    discounts: &[f64],
    model: &edge::Model,
    given: &edge::Schedule,
    terms: &Terms,
    paths: usize,
    draws: &[f64],
    observations: &mut [f64],
) -> Estimate {
    let refuse = |No { number, place }: No, steps: u64| Estimate {
        number,
        place,
        steps,
        ..Default::default()
    };
    let asked = questions::vanilla(
        weights,
        discounts,
        model,
        given,
        terms,
        mirrored,
        paths,
        draws.len(),
        observations.len(),
    );
    let ends = match asked {
        Ok(ends) => ends,
        Err(no) => return refuse(no, 0),
    };
    let params = params(weights, discounts, model);
    let schedule = lay(given);
    let lists = draws_by_path(draws, ends[ends.len() - 1], mirrored);
    let taken = run_batch(&params, &schedule, &ends, &lists, observations, |state| {
        state.spot
    });
    if let Some(no) = taken.refused {
        return refuse(no, taken.steps);
    }
    let paths = NonZeroUsize::new(paths).expect("asked by then");
    let priced = match *terms {
        Terms::Vanilla { put, strike } => price_vanilla_quadratic_rough_heston(
            &params,
            &schedule,
            style(put),
            positive(strike),
            mirrored,
            paths,
            &lists,
        ),
        Terms::DownAndOut { strike, barrier } => price_down_and_out(
            &params,
            &schedule,
            positive(strike),
            positive(barrier),
            mirrored,
            paths,
            &lists,
        ),
    };
    let estimate = priced.expect("no path stops");
    let reported = [
        estimate.price,
        estimate.standard_error,
        estimate.mean_terminal_spot,
        estimate.terminal_spot_standard_error,
    ];
    if let Err(no) = questions::estimates(reported) {
        return refuse(no, taken.steps);
    }
    Estimate {
        number: 0,
        place: [0; 4],
        price: reported[0],
        price_error: reported[1],
        spot_mean: reported[2],
        spot_error: reported[3],
        paths: estimate.paths as u64,
        non_positive: estimate.non_positive_paths as u64,
        steps: taken.steps,
    }
}

/// The Rust's number of squarings, by a rounded log2.
#[must_use]
pub fn rust_squarings(norm: f64) -> Option<i32> {
    squarings_by_log2(norm)
}

/// The number of squarings that is compared: the Rust's, which must be the least one outside the
/// excluded norms; there, the least one.
fn compared_squarings(norm: f64) -> Option<i32> {
    if !(2.0 * norm).is_finite() {
        return squarings_by_log2(norm);
    }
    let least = Some(questions::squarings(norm) as i32);
    if !questions::excluded_norm(norm) {
        debug_assert_eq!(squarings_by_log2(norm), least, "norm {norm:e}");
    }
    least
}

/// 17 of a matrix, and its exponential.
fn exponential_of(matrix: &Matrix) -> Asked<Matrix> {
    questions::exponential(
        matrix.norm_1(),
        || {
            matrix
                .exponential(compared_squarings)
                .expect("a buffer of this size")
                .expect("a finite norm")
        },
        |exponential| &exponential.entries,
    )
}

/// Builds the index of inputs that passed the door up to 16, or gives the No of 17.
fn build(
    params: &QuadraticRoughHestonParams,
    window: edge::Decimal,
) -> Asked<QuadraticRoughHestonVix> {
    let delta = decimal_to_f64(decimal(window)).expect("asked by then");
    let generator =
        QuadraticRoughHestonVix::generator(params, delta).expect("a buffer of this size");
    let asked = exponential_of(&generator).map(|_| ());
    let built = QuadraticRoughHestonVix::try_new(params, positive(window), compared_squarings);
    match built {
        Ok(vix) => {
            debug_assert!(asked.is_ok());
            Ok(vix)
        }
        Err(QuadraticRoughHestonError::VixMomentsNotFinite { .. }) => {
            Err(asked.expect_err("the Rust refused the moments"))
        }
        Err(other) => panic!("the Rust refused: {other:?}"),
    }
}

/// The norm of the generator of a VIX build whose inputs pass the door up to 16.
#[must_use]
pub fn vix_norm(
    weights: &[f64],
    discounts: &[f64],
    model: &edge::Model,
    window: edge::Decimal,
) -> f64 {
    let params = params(weights, discounts, model);
    let delta = decimal_to_f64(decimal(window)).expect("asked by then");
    QuadraticRoughHestonVix::generator(&params, delta)
        .expect("a buffer of this size")
        .norm_1()
}

/// The norm of a matrix of the length that its dimension asks.
#[must_use]
pub fn matrix_norm(dimension: usize, input: &[f64]) -> f64 {
    Matrix::from_entries(dimension, input).norm_1()
}

/// Evaluate the VIX.
#[must_use]
pub fn vix(
    weights: &[f64],
    discounts: &[f64],
    model: &edge::Model,
    window: edge::Decimal,
    given: &Factors,
    workspace: &[f64],
) -> VixValue {
    let answer = || {
        questions::vix_before_17(weights, discounts, model, window, workspace.len())?;
        let vix = build(&params(weights, discounts, model), window)?;
        questions::vix_after_17(weights.len(), given)?;
        let factors: Vec<Decimal> = given.factors[..given.count]
            .iter()
            .map(|factor| decimal(*factor))
            .collect();
        let raw: Vec<f64> = factors
            .iter()
            .map(|factor| decimal_to_f64(*factor).expect("asked by then"))
            .collect();
        let asked = questions::vix_squared(vix.raw_squared(&raw), &[]);
        match (vix.squared_at(&factors), vix.at(&factors)) {
            (Ok(squared), Ok(index)) => {
                debug_assert!(asked.is_ok());
                Ok((squared, index))
            }
            _ => Err(asked.expect_err("the Rust refused the value")),
        }
    };
    match answer() {
        Ok((squared, index)) => VixValue {
            number: 0,
            place: [0; 4],
            squared,
            index,
        },
        Err(No { number, place }) => VixValue {
            number,
            place,
            ..Default::default()
        },
    }
}

/// Price a VIX batch.
#[allow(clippy::too_many_arguments)]
pub fn vix_batch(
    weights: &[f64],
    discounts: &[f64],
    model: &edge::Model,
    given: &edge::Schedule,
    window: edge::Decimal,
    payoff: &VixPayoff,
    paths: usize,
    draws: &[f64],
    workspace: &[f64],
    observations: &mut [f64],
) -> VixEstimate {
    let refuse = |No { number, place }: No, steps: u64| VixEstimate {
        number,
        place,
        steps,
        ..Default::default()
    };
    let door = || {
        let ends = questions::vix_batch_before_17(
            weights,
            discounts,
            model,
            given,
            window,
            workspace.len(),
        )?;
        let vix = build(&params(weights, discounts, model), window)?;
        questions::vix_batch_after_17(payoff, paths, &ends, draws.len(), observations.len())?;
        Ok((ends, vix))
    };
    let (ends, vix) = match door() {
        Ok(passed) => passed,
        Err(no) => return refuse(no, 0),
    };
    let params = params(weights, discounts, model);
    let schedule = lay(given);
    let lists = draws_by_path(draws, ends[ends.len() - 1], false);
    let taken = run_batch(&params, &schedule, &ends, &lists, observations, |state| {
        vix.raw_squared(&state.factors)
    });
    if let Some(no) = taken.refused {
        return refuse(no, taken.steps);
    }
    let raw_payoff = if payoff.future {
        QuadraticRoughHestonVixPayoff::Future
    } else {
        QuadraticRoughHestonVixPayoff::Vanilla {
            style: style(payoff.put),
            strike: positive(payoff.strike),
        }
    };
    let priced = price_vix_quadratic_rough_heston(
        &params,
        &schedule,
        &vix,
        raw_payoff,
        NonZeroUsize::new(paths).expect("asked by then"),
        &lists,
    );
    let column = questions::vix_column(observations, ends.len());
    let estimate = match (column, priced) {
        (Ok(()), Ok(estimate)) => estimate,
        (Err(no), Err(QuadraticRoughHestonError::VixNotPositive { .. })) => {
            return refuse(no, taken.steps);
        }
        (asked, priced) => panic!("{asked:?}, and the Rust: {priced:?}"),
    };
    let reported = [
        estimate.price,
        estimate.standard_error,
        estimate.future,
        estimate.future_standard_error,
    ];
    if let Err(no) = questions::estimates(reported) {
        return refuse(no, taken.steps);
    }
    VixEstimate {
        number: 0,
        place: [0; 4],
        payoff: reported[0],
        payoff_error: reported[1],
        index: reported[2],
        index_error: reported[3],
        paths: estimate.paths as u64,
        steps: taken.steps,
    }
}

/// Exponentiate a matrix.
pub fn exponential(
    dimension: usize,
    input: &[f64],
    output: &mut [f64],
    workspace: &[f64],
) -> Exponentiation {
    let mut answer = || {
        questions::matrix(dimension, input.len(), output.len(), workspace.len())?;
        let matrix = Matrix::from_entries(dimension, input);
        let exponential = exponential_of(&matrix)?;
        output.copy_from_slice(&exponential.entries);
        Ok(questions::squarings(matrix.norm_1()))
    };
    match answer() {
        Ok(squarings) => Exponentiation {
            number: 0,
            place: [0; 4],
            squarings,
        },
        Err(No { number, place }) => Exponentiation {
            number,
            place,
            squarings: 0,
        },
    }
}
