//! The questions (docs/SPECIFICATION.md, section 14), read plainly: for each call the number, the
//! place and what every lent table holds afterwards. It shares nothing with the copied Rust, whose
//! own refusals are others; what it needs of the values (a state after a step, an exponential, an
//! estimate) is handed to it.

use crate::cases::Terms;
use crate::edge::{self, Decimal, Factors, Schedule, VixPayoff};

/// A No: the number and the place, 0 where there is none.
#[derive(Debug, Clone, Copy, PartialEq, Eq)]
pub struct No {
    pub number: u32,
    pub place: [u64; 4],
}

/// A Yes with what it found, or the first No.
pub type Asked<T> = Result<T, No>;

fn no(number: u32, place: &[u64]) -> No {
    let mut whole = [0; 4];
    whole[..place.len()].copy_from_slice(place);
    No {
        number,
        place: whole,
    }
}

fn ask(yes: bool, number: u32) -> Asked<()> {
    ask_at(yes, number, &[])
}

fn ask_at(yes: bool, number: u32, place: &[u64]) -> Asked<()> {
    if yes { Ok(()) } else { Err(no(number, place)) }
}

fn is_zero(d: Decimal) -> bool {
    d.low == 0 && d.high == 0
}

fn above_zero(d: Decimal) -> bool {
    !is_zero(d) && !d.negative
}

fn at_least_zero(d: Decimal) -> bool {
    is_zero(d) || !d.negative
}

/// 1: has each nonzero Decimal scale ≤ 28?
pub fn scale(d: Decimal) -> Asked<()> {
    ask(is_zero(d) || d.scale <= 28, 1)
}

/// 2 to 4.
fn kernel(weights: &[f64], discounts: &[f64]) -> Asked<()> {
    ask((1..=10).contains(&weights.len()), 2)?;
    ask(discounts.len() == weights.len(), 3)?;
    let low = f64::from_bits((1023 - 90) << 52);
    let high = f64::from_bits((1023 + 90) << 52);
    for i in 0..weights.len() {
        let place = i as u64 + 1;
        ask_at(weights[i] >= low && weights[i] <= high, 4, &[1, place])?;
        ask_at(discounts[i] >= low && discounts[i] <= high, 4, &[2, place])?;
    }
    Ok(())
}

/// 10 and 1 of a list of factors.
fn factors(n: usize, count: usize, factors: &[Decimal; 10]) -> Asked<()> {
    ask(count == n, 10)?;
    factors[..n].iter().try_for_each(|factor| scale(*factor))
}

/// 5 to 10, then 1 of a, b, c, lambda, eta, factors, spot.
fn parameters(n: usize, model: &edge::Model) -> Asked<()> {
    ask(at_least_zero(model.a), 5)?;
    ask(above_zero(model.c), 6)?;
    ask(above_zero(model.lambda), 7)?;
    ask(above_zero(model.eta), 8)?;
    ask(above_zero(model.spot), 9)?;
    factors(n, model.factor_count, &model.factors)?;
    for d in [
        model.a,
        model.b,
        model.c,
        model.lambda,
        model.eta,
        model.spot,
    ] {
        scale(d)?;
    }
    Ok(())
}

/// 11, 12, then segment by segment 13, 14 and 1 of its dt. A Yes gives the last step of each
/// segment.
fn schedule(schedule: &Schedule) -> Asked<Vec<u64>> {
    ask(schedule.count > 0, 11)?;
    ask(schedule.count <= 64, 12)?;
    let mut ends = Vec::new();
    let mut total = 0;
    for (i, segment) in schedule.segments[..schedule.count].iter().enumerate() {
        let place = [i as u64 + 1];
        ask_at(above_zero(segment.dt) && segment.steps > 0, 13, &place)?;
        total += u64::from(segment.steps);
        ask_at(total <= 4096, 14, &place)?;
        scale(segment.dt)?;
        ends.push(total);
    }
    Ok(ends)
}

/// The dimension of the moment system: n means, the pairs, the integral and the constant.
#[must_use]
pub fn dimension(n: usize) -> usize {
    n + n * (n + 1) / 2 + 2
}

/// 15 and 1 of the window, then 16.
fn window(n: usize, window: Decimal, workspace: usize) -> Asked<()> {
    ask(above_zero(window), 15)?;
    scale(window)?;
    ask(workspace == 5 * dimension(n) * dimension(n), 16)
}

/// 17: are norm, twice norm and every entry of the exponential finite? The exponential is asked for
/// only where both norms are.
pub fn exponential<E>(
    norm: f64,
    exponential: impl FnOnce() -> E,
    entries: impl FnOnce(&E) -> &[f64],
) -> Asked<E> {
    ask(norm.is_finite() && (2.0 * norm).is_finite(), 17)?;
    let exponential = exponential();
    ask(entries(&exponential).iter().all(|x| x.is_finite()), 17)?;
    Ok(exponential)
}

/// 18 and 1 of the strike.
fn strike(strike: Decimal) -> Asked<()> {
    ask(at_least_zero(strike), 18)?;
    scale(strike)
}

/// 27 and 1 of the barrier.
fn barrier(barrier: Decimal) -> Asked<()> {
    ask(above_zero(barrier), 27)?;
    scale(barrier)
}

/// 18 and 1 of the strike; of a down-and-out put then 27 and 1 of the barrier.
fn terms(terms: &Terms) -> Asked<()> {
    match *terms {
        Terms::Vanilla { strike: struck, .. } => strike(struck),
        Terms::DownAndOut {
            strike: struck,
            barrier: barred,
        } => {
            strike(struck)?;
            barrier(barred)
        }
    }
}

/// 19, 28, 20 and 21 of a batch.
fn batch(paths: usize, mirrored: bool, ends: &[u64], draws: usize, table: usize) -> Asked<()> {
    ask((2..=65_536).contains(&paths), 19)?;
    ask(!mirrored || paths % 2 == 0, 19)?;
    ask(!mirrored || paths >= 4, 28)?;
    let total = ends[ends.len() - 1] as usize;
    let drawn = if mirrored { paths / 2 } else { paths };
    ask(draws == drawn * total, 20)?;
    ask(table == paths * ends.len(), 21)
}

/// What a trace asks before its first step. A Yes gives the last step of each segment.
pub fn trace(
    weights: &[f64],
    discounts: &[f64],
    model: &edge::Model,
    given: &Schedule,
    draws: usize,
    tables: [usize; 4],
) -> Asked<Vec<u64>> {
    kernel(weights, discounts)?;
    parameters(weights.len(), model)?;
    let ends = schedule(given)?;
    let total = ends[ends.len() - 1] as usize;
    ask(draws == total, 20)?;
    let points = total + 1;
    ask(
        tables == [points, points, points, points * weights.len()],
        21,
    )?;
    Ok(ends)
}

/// What a batch on the spot asks before its first step.
#[allow(clippy::too_many_arguments)]
pub fn vanilla(
    weights: &[f64],
    discounts: &[f64],
    model: &edge::Model,
    given: &Schedule,
    paid: &Terms,
    mirrored: bool,
    paths: usize,
    draws: usize,
    table: usize,
) -> Asked<Vec<u64>> {
    kernel(weights, discounts)?;
    parameters(weights.len(), model)?;
    let ends = schedule(given)?;
    terms(paid)?;
    batch(paths, mirrored, &ends, draws, table)?;
    Ok(ends)
}

/// What a VIX evaluation asks before 17.
pub fn vix_before_17(
    weights: &[f64],
    discounts: &[f64],
    model: &edge::Model,
    over: Decimal,
    workspace: usize,
) -> Asked<()> {
    kernel(weights, discounts)?;
    parameters(weights.len(), model)?;
    window(weights.len(), over, workspace)
}

/// What a VIX evaluation asks after 17 and before 23.
pub fn vix_after_17(n: usize, given: &Factors) -> Asked<()> {
    factors(n, given.count, &given.factors)
}

/// What a VIX batch asks before 17.
pub fn vix_batch_before_17(
    weights: &[f64],
    discounts: &[f64],
    model: &edge::Model,
    given: &Schedule,
    over: Decimal,
    workspace: usize,
) -> Asked<Vec<u64>> {
    kernel(weights, discounts)?;
    parameters(weights.len(), model)?;
    let ends = schedule(given)?;
    window(weights.len(), over, workspace)?;
    Ok(ends)
}

/// What a VIX batch asks after 17 and before its first step.
pub fn vix_batch_after_17(
    payoff: &VixPayoff,
    paths: usize,
    ends: &[u64],
    draws: usize,
    table: usize,
) -> Asked<()> {
    if !payoff.future {
        strike(payoff.strike)?;
    }
    batch(paths, false, ends, draws, table)
}

/// What a matrix call asks before 17.
pub fn matrix(dimension: usize, input: usize, output: usize, workspace: usize) -> Asked<()> {
    ask((1..=67).contains(&dimension), 26)?;
    let entries = dimension * dimension;
    ask(input == entries && output == entries, 26)?;
    ask(workspace == 5 * entries, 16)
}

/// The least whole number s ≥ 0 with norm ≤ 0.5 × 2^s. Norm and twice norm are finite.
#[must_use]
pub fn squarings(norm: f64) -> u64 {
    (0..=1024)
        .find(|s| norm <= f64::from_bits((1022 + s) << 52))
        .expect("twice the norm is finite")
}

/// Norms within 2^-40, relatively, of a power of two, though not themselves a power of two: there
/// the Rust's rounded log2 may take another number of squarings.
#[must_use]
pub fn excluded_norm(norm: f64) -> bool {
    if !norm.is_finite() || norm <= 0.0 {
        return false;
    }
    // A subnormal norm is moved into the normal range, which is exact.
    let normal = if norm < f64::MIN_POSITIVE {
        norm * f64::from_bits((1023 + 60) << 52)
    } else {
        norm
    };
    let fraction = normal.to_bits() & ((1 << 52) - 1);
    fraction != 0 && (fraction <= 1 << 12 || (1 << 52) - fraction <= 1 << 13)
}

/// What question 22 looks at after a step.
#[derive(Debug, Clone, Copy)]
pub struct Seen {
    pub spot: f64,
    pub z: f64,
    pub variance: f64,
}

/// 22: the first of spot, z, variance that is not finite.
fn quantity(seen: Seen) -> Option<u64> {
    [seen.spot, seen.z, seen.variance]
        .iter()
        .position(|x| !x.is_finite())
        .map(|i| i as u64 + 1)
}

/// How the steps of a call went: the steps taken, the failing one included, and the No of 22 if
/// there is one.
#[derive(Debug, Clone, Copy)]
pub struct Taken {
    pub steps: u64,
    pub refused: Option<No>,
}

/// 22 of a batch, and its observation table: row `path`, one column a segment. `walk(path, step)`
/// works the step and gives the state after it and what is observed there.
pub fn batch_steps(
    paths: u64,
    ends: &[u64],
    table: &mut [f64],
    mut walk: impl FnMut(u64, u64) -> (Seen, f64),
) -> Taken {
    let total = ends[ends.len() - 1];
    let mut steps = 0;
    for path in 1..=paths {
        for step in 1..=total {
            let (seen, observation) = walk(path, step);
            steps += 1;
            if let Some(quantity) = quantity(seen) {
                return Taken {
                    steps,
                    refused: Some(no(22, &[path, step, quantity, steps])),
                };
            }
            if let Some(column) = ends.iter().position(|end| *end == step) {
                table[(path as usize - 1) * ends.len() + column] = observation;
            }
        }
    }
    Taken {
        steps,
        refused: None,
    }
}

/// The tables of a trace.
#[derive(Debug)]
pub struct TraceTables<'a> {
    pub spots: &'a mut [f64],
    pub variances: &'a mut [f64],
    pub z: &'a mut [f64],
    pub factors: &'a mut [f64],
}

/// 22 of a trace, and its tables: points 0 to N, factors flattened by point. `walk(step)` works the
/// step and gives the state after it; step 0 is the start.
pub fn trace_steps(
    total: u64,
    tables: &mut TraceTables,
    mut walk: impl FnMut(u64) -> (Seen, Vec<f64>),
) -> Taken {
    for step in 0..=total {
        let (seen, factors) = walk(step);
        // The start is finite by arithmetic.
        assert!(step > 0 || quantity(seen).is_none());
        if let Some(quantity) = quantity(seen) {
            return Taken {
                steps: step,
                refused: Some(no(22, &[1, step, quantity, step])),
            };
        }
        let point = step as usize;
        tables.spots[point] = seen.spot;
        tables.variances[point] = seen.variance;
        tables.z[point] = seen.z;
        tables.factors[point * factors.len()..][..factors.len()].copy_from_slice(&factors);
    }
    Taken {
        steps: total,
        refused: None,
    }
}

/// 23 and 24 of one squared value.
pub fn vix_squared(squared: f64, path: &[u64]) -> Asked<()> {
    ask_at(squared.is_finite(), 23, path)?;
    ask_at(squared > 0.0, 24, path)
}

/// 23 and 24 of a batch: the last column, path by path.
pub fn vix_column(table: &[f64], columns: usize) -> Asked<()> {
    for (i, row) in table.chunks_exact(columns).enumerate() {
        vix_squared(row[columns - 1], &[i as u64 + 1])?;
    }
    Ok(())
}

/// 25: are the four estimates finite, in reported order?
pub fn estimates(reported: [f64; 4]) -> Asked<()> {
    for (i, estimate) in reported.iter().enumerate() {
        ask_at(estimate.is_finite(), 25, &[i as u64 + 1])?;
    }
    Ok(())
}
