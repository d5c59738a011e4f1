//! The oracle under the C names of the core, to try the comparison without a core.

use oracle::calls;
use oracle::cases::Terms;
use oracle::edge::{
    self, Conversion, Decimal, Estimate, Exponentiation, Factors, Schedule, Tracing, VixEstimate,
    VixPayoff, VixValue,
};
use std::slice::{from_raw_parts, from_raw_parts_mut};

#[unsafe(no_mangle)]
pub extern "C" fn qrh_convert(decimal: Decimal) -> Conversion {
    calls::convert(decimal)
}

#[unsafe(no_mangle)]
pub extern "C" fn qrh_sqrt(value: f64) -> f64 {
    calls::sqrt(value)
}

/// # Safety
///
/// Each pointer has as many doubles as the length after it says.
#[unsafe(no_mangle)]
pub unsafe extern "C" fn qrh_trace(
    weights: *const f64,
    weights_length: usize,
    discounts: *const f64,
    discounts_length: usize,
    model: edge::Model,
    schedule: Schedule,
    draws: *const f64,
    draws_length: usize,
    spots: *mut f64,
    spots_length: usize,
    variances: *mut f64,
    variances_length: usize,
    z: *mut f64,
    z_length: usize,
    factors: *mut f64,
    factors_length: usize,
) -> Tracing {
    // SAFETY: the caller sees to it.
    unsafe {
        calls::trace(
            from_raw_parts(weights, weights_length),
            from_raw_parts(discounts, discounts_length),
            &model,
            &schedule,
            from_raw_parts(draws, draws_length),
            from_raw_parts_mut(spots, spots_length),
            from_raw_parts_mut(variances, variances_length),
            from_raw_parts_mut(z, z_length),
            from_raw_parts_mut(factors, factors_length),
        )
    }
}

/// # Safety
///
/// Each pointer has as many doubles as the length after it says.
#[unsafe(no_mangle)]
pub unsafe extern "C" fn qrh_vanilla(
    weights: *const f64,
    weights_length: usize,
    discounts: *const f64,
    discounts_length: usize,
    model: edge::Model,
    schedule: Schedule,
    put: bool,
    strike: Decimal,
    paths: usize,
    draws: *const f64,
    draws_length: usize,
    observations: *mut f64,
    observations_length: usize,
) -> Estimate {
    // SAFETY: the caller sees to it.
    unsafe {
        calls::vanilla(
            false,
            from_raw_parts(weights, weights_length),
            from_raw_parts(discounts, discounts_length),
            &model,
            &schedule,
            &Terms::Vanilla { put, strike },
            paths,
            from_raw_parts(draws, draws_length),
            from_raw_parts_mut(observations, observations_length),
        )
    }
}

/// # Safety
///
/// Each pointer has as many doubles as the length after it says.
#[unsafe(no_mangle)]
pub unsafe extern "C" fn qrh_mirrored(
    weights: *const f64,
    weights_length: usize,
    discounts: *const f64,
    discounts_length: usize,
    model: edge::Model,
    schedule: Schedule,
    put: bool,
    strike: Decimal,
    paths: usize,
    draws: *const f64,
    draws_length: usize,
    observations: *mut f64,
    observations_length: usize,
) -> Estimate {
    // SAFETY: the caller sees to it.
    unsafe {
        calls::vanilla(
            true,
            from_raw_parts(weights, weights_length),
            from_raw_parts(discounts, discounts_length),
            &model,
            &schedule,
            &Terms::Vanilla { put, strike },
            paths,
            from_raw_parts(draws, draws_length),
            from_raw_parts_mut(observations, observations_length),
        )
    }
}

/// # Safety
///
/// Each pointer has as many doubles as the length after it says.
#[unsafe(no_mangle)]
pub unsafe extern "C" fn qrh_down_and_out(
    weights: *const f64,
    weights_length: usize,
    discounts: *const f64,
    discounts_length: usize,
    model: edge::Model,
    schedule: Schedule,
    strike: Decimal,
    barrier: Decimal,
    paths: usize,
    draws: *const f64,
    draws_length: usize,
    observations: *mut f64,
    observations_length: usize,
) -> Estimate {
    // SAFETY: the caller sees to it.
    unsafe {
        calls::vanilla(
            false,
            from_raw_parts(weights, weights_length),
            from_raw_parts(discounts, discounts_length),
            &model,
            &schedule,
            &Terms::DownAndOut { strike, barrier },
            paths,
            from_raw_parts(draws, draws_length),
            from_raw_parts_mut(observations, observations_length),
        )
    }
}

/// # Safety
///
/// Each pointer has as many doubles as the length after it says.
#[unsafe(no_mangle)]
pub unsafe extern "C" fn qrh_mirrored_down_and_out(
    weights: *const f64,
    weights_length: usize,
    discounts: *const f64,
    discounts_length: usize,
    model: edge::Model,
    schedule: Schedule,
    strike: Decimal,
    barrier: Decimal,
    paths: usize,
    draws: *const f64,
    draws_length: usize,
    observations: *mut f64,
    observations_length: usize,
) -> Estimate {
    // SAFETY: the caller sees to it.
    unsafe {
        calls::vanilla(
            true,
            from_raw_parts(weights, weights_length),
            from_raw_parts(discounts, discounts_length),
            &model,
            &schedule,
            &Terms::DownAndOut { strike, barrier },
            paths,
            from_raw_parts(draws, draws_length),
            from_raw_parts_mut(observations, observations_length),
        )
    }
}

/// # Safety
///
/// Each pointer has as many doubles as the length after it says.
#[unsafe(no_mangle)]
pub unsafe extern "C" fn qrh_vix(
    weights: *const f64,
    weights_length: usize,
    discounts: *const f64,
    discounts_length: usize,
    model: edge::Model,
    window: Decimal,
    given: Factors,
    workspace: *mut f64,
    workspace_length: usize,
) -> VixValue {
    // SAFETY: the caller sees to it.
    unsafe {
        calls::vix(
            from_raw_parts(weights, weights_length),
            from_raw_parts(discounts, discounts_length),
            &model,
            window,
            &given,
            from_raw_parts(workspace, workspace_length),
        )
    }
}

/// # Safety
///
/// Each pointer has as many doubles as the length after it says.
#[unsafe(no_mangle)]
pub unsafe extern "C" fn qrh_vix_batch(
    weights: *const f64,
    weights_length: usize,
    discounts: *const f64,
    discounts_length: usize,
    model: edge::Model,
    schedule: Schedule,
    window: Decimal,
    payoff: VixPayoff,
    paths: usize,
    draws: *const f64,
    draws_length: usize,
    workspace: *mut f64,
    workspace_length: usize,
    observations: *mut f64,
    observations_length: usize,
) -> VixEstimate {
    // SAFETY: the caller sees to it.
    unsafe {
        calls::vix_batch(
            from_raw_parts(weights, weights_length),
            from_raw_parts(discounts, discounts_length),
            &model,
            &schedule,
            window,
            &payoff,
            paths,
            from_raw_parts(draws, draws_length),
            from_raw_parts(workspace, workspace_length),
            from_raw_parts_mut(observations, observations_length),
        )
    }
}

/// # Safety
///
/// Each pointer has as many doubles as the length after it says.
#[unsafe(no_mangle)]
pub unsafe extern "C" fn qrh_exponential(
    dimension: usize,
    input: *const f64,
    input_length: usize,
    output: *mut f64,
    output_length: usize,
    workspace: *mut f64,
    workspace_length: usize,
) -> Exponentiation {
    // SAFETY: the caller sees to it.
    unsafe {
        calls::exponential(
            dimension,
            from_raw_parts(input, input_length),
            from_raw_parts_mut(output, output_length),
            from_raw_parts(workspace, workspace_length),
        )
    }
}
