//! The down-and-out put, which the Rust does not have: over the paths of the copied Rust, whose
//! states carry their lowest spot, and its running moments, a payoff that is read from
//! docs/SPECIFICATION.md, rule 10.5. The benchmark takes it from here too.

use crate::optionstratlib::decimal::decimal_to_f64;
use crate::optionstratlib::error::QuadraticRoughHestonError;
use crate::optionstratlib::quadratic_rough_heston::{
    Moments, QuadraticRoughHestonEstimate, QuadraticRoughHestonParams, Schedule, State, run_paths,
};
use crate::optionstratlib::stand_in::Positive;
use crate::samples;
use std::num::NonZeroUsize;

/// What a path leaves to its payoff.
#[derive(Debug, Clone, Copy, Default)]
struct Ended {
    spot: f64,
    lowest: f64,
}

/// Nothing where the lowest spot is at or below the barrier, else what the put pays.
fn payoff(strike: f64, barrier: f64, ended: Ended) -> f64 {
    if ended.lowest <= barrier {
        0.0
    } else {
        (strike - ended.spot).max(0.0)
    }
}

/// Prices a down-and-out put as `price_vanilla_quadratic_rough_heston` prices a put.
pub(crate) fn price_down_and_out(
    params: &QuadraticRoughHestonParams,
    schedule: &Schedule,
    strike: Positive,
    barrier: Positive,
    mirrored: bool,
    paths: NonZeroUsize,
    draws: &[Vec<f64>],
) -> Result<QuadraticRoughHestonEstimate, QuadraticRoughHestonError> {
    let runs = run_paths(
        params,
        schedule,
        paths,
        draws,
        |_, state: &State, ended: &mut Ended| {
            *ended = Ended {
                spot: state.spot,
                lowest: state.lowest,
            };
        },
    )?;
    let raw_strike = decimal_to_f64(strike.to_dec())?;
    let raw_barrier = decimal_to_f64(barrier.to_dec())?;

    let mut ended = Vec::with_capacity(runs.len());
    for run in &runs {
        let paid = payoff(raw_strike, raw_barrier, run.observed);
        ended.push((paid, run.observed.spot));
    }

    let mut paid = Moments::default();
    let mut terminal = Moments::default();
    for sample in ended.chunks_exact(samples::size(mirrored)) {
        paid.add(samples::mean(sample, |path| path.0));
        terminal.add(samples::mean(sample, |path| path.1));
    }

    let (price, standard_error) = paid.estimate()?;
    let (mean_terminal_spot, terminal_spot_standard_error) = terminal.estimate()?;
    Ok(QuadraticRoughHestonEstimate {
        price,
        standard_error,
        mean_terminal_spot,
        terminal_spot_standard_error,
        paths: runs.len(),
        non_positive_paths: runs.iter().filter(|run| run.non_positive).count(),
    })
}
