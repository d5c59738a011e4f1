/******************************************************************************
   Author: Joaquín Béjar García
   Email: jb@taunais.com
   Date: 6/11/26
******************************************************************************/

//! The multi-factor quadratic rough Heston model: its kernel, its simulation by the
//! explicit-implicit Euler scheme (A.1) and the Monte Carlo price of a vanilla on it.
//! [`QuadraticRoughHestonParams`] documents the model for consumers.

// Oracle: what is changed is marked `Oracle:`. Everywhere, `pub(super)` became `pub(crate)`, draws are
// supplied instead of generated, paths run one after another, and results stay raw doubles, where
// the library turns them into a `Decimal`. The kernel from alpha, `value_at`, the grid, the records
// of `Decimal` results, the getters and the attributes of `tracing` are left out.

use super::decimal::decimal_to_f64;
use super::error::QuadraticRoughHestonError;
use super::stand_in::{Decimal, OptionStyle, Positive};
use crate::samples;
use std::num::NonZeroUsize;

/// The fewest paths with a standard error.
const MIN_PATHS: usize = 2;

/// An empty buffer able to hold `len` entries without growing.
pub(crate) fn reserve<T>(
    len: usize,
    buffer: &'static str,
) -> Result<Vec<T>, QuadraticRoughHestonError> {
    let mut reserved = Vec::new();
    reserved
        .try_reserve_exact(len)
        .map_err(|_| QuadraticRoughHestonError::BufferTooLarge { buffer, len })?;
    Ok(reserved)
}

#[cold]
#[inline(never)]
pub(crate) fn invalid_parameter(
    parameter: &'static str,
    value: Decimal,
    reason: &'static str,
) -> QuadraticRoughHestonError {
    QuadraticRoughHestonError::InvalidParameter {
        parameter,
        value,
        reason,
    }
}

/// The factor weights and discounts of the geometric partition of the fractional kernel.
///
/// With `eta_i = x^(i - n/2)` for `i = 1..=n`, the measure
/// `mu(dg) = g^(-alpha) dg / (Gamma(alpha) Gamma(1 - alpha))` is lumped on each
/// `[eta_(i-1), eta_i]` into one atom, whose mass is the weight and whose mean is the
/// discount:
///
/// ```text
/// c_i     = x^((1-alpha)(i-n/2)) (1 - x^(alpha-1)) / ((1-alpha) Gamma(alpha) Gamma(1-alpha))
/// gamma_i = (1-alpha) x^(i-1-n/2) (x^(2-alpha) - 1) / ((2-alpha) (x^(1-alpha) - 1))
/// ```
///
/// [`value_at`](Self::value_at) is `K^n(t) = sum c_i exp(-gamma_i t)`, which approximates
/// `K(t) = t^(alpha-1) / Gamma(alpha)` on a range of `t` set by `n` and `x`. The ratio that
/// suits a given `n` is the caller's choice: there is no default.
// Oracle: the tables are supplied.
#[derive(Debug, Clone, PartialEq)]
pub struct QuadraticRoughHestonKernel {
    pub(crate) raw_weights: Vec<f64>,
    pub(crate) raw_discounts: Vec<f64>,
}

impl QuadraticRoughHestonKernel {
    // Oracle: test-only access.
    /// The kernel of the given tables.
    pub fn from_tables(weights: &[f64], discounts: &[f64]) -> Self {
        Self {
            raw_weights: weights.to_vec(),
            raw_discounts: discounts.to_vec(),
        }
    }

    /// The number of factors `n`.
    #[must_use]
    #[inline]
    pub fn factors(&self) -> usize {
        // Oracle: the library counts its `Decimal` weights.
        self.raw_weights.len()
    }
}

/// The parameters of the model and its initial state.
///
/// # Model
///
/// The multi-factor approximation of the quadratic rough Heston model, driven by one
/// Brownian motion `W` under the risk-neutral measure:
///
/// ```text
/// dS   = S sqrt(V) dW,   V = a (Z - b)^2 + c,   Z = sum c_i Z^i
/// dZ^i = (-gamma_i Z^i - lambda Z) dt + eta sqrt(V) dW,   Z^i_0 given
/// ```
///
/// `(c_i, gamma_i)` come from the [`QuadraticRoughHestonKernel`]. The initial factors are
/// free parameters, which replace the function `theta_0` of the rough model and set the
/// initial term structure of `Z`.
///
/// # Scheme
///
/// [`simulate_quadratic_rough_heston_path`] and [`price_vanilla_quadratic_rough_heston`]
/// use the explicit-implicit Euler scheme (A.1) of the calibration paper, with `dt = T / N`
/// and `dW ~ N(0, dt)`:
///
/// ```text
/// V_k       = a (Z_k - b)^2 + c,   Z_k = sum c_i Z^i_k
/// S_(k+1)   = S_k + S_k sqrt(V_k) dW_k
/// Z^i_(k+1) = (Z^i_k - lambda Z_k dt + eta sqrt(V_k) dW_k) / (1 + gamma_i dt)
/// ```
///
/// The implicit denominator keeps the scheme stable for a large `gamma_i`.
///
/// # What this implementation does and does not do
///
/// - **The spot can go negative.** Scheme (A.1) is an arithmetic Euler step, so `S_(k+1)` is
///   not above zero when `sqrt(V_k) dW_k <= -1`. It is not clamped, since a clamp would break
///   the martingale property. [`QuadraticRoughHestonEstimate::non_positive_paths`] counts the
///   affected paths, and on one of them a put can pay more than its strike. A low count does
///   not show that the step is fine enough, as the last point below shows.
/// - **The variance is not truncated.** The calibration paper's footnote 1 mentions a
///   truncated square that secures the martingale property. This is the plain square, so a
///   path whose state stops being finite returns [`QuadraticRoughHestonError::NonFinite`]
///   with its step, and no value is replaced.
/// - **There are no rates or dividends.** `S` is driftless, and a price is the undiscounted
///   mean payoff, as with `r = q = 0`.
/// - **No parameter set is a default.** The papers' values are for SPX and VIX, and nothing
///   here is calibrated to any underlying.
/// - **One run does not show that a price has converged.** A strong feedback gives heavy
///   tails, and neither a small standard error, a low count of non positive paths nor a mean
///   of `S_T` close to `S_0` rules out a wrong price. Take `alpha = 0.51`, `n = 10`, `x = 3.92`,
///   `a = 1`, `b = 0.1`, `c = 0.01`, `lambda = 1.5`, `eta = 1`, `Z^i_0 = -0.05`,
///   `S_0 = K = 100`, `T = 0.25` and 100,000 paths, as an illustration. At `N = 100`, about
///   0.15% of the paths are non positive, and an ATM call is `150589 +/- 150584` at seed 1 and
///   `5.32 +/- 0.02` at seed 3, while `N = 800` gives about `4.89`. So the small standard error
///   at seed 3 hides a bias of about 20 of them, and the blown-up run has a mean of `S_T` about
///   one standard error from `S_0`, because the standard error grows with the mean. **Compare
///   several seeds and several step counts before trusting a price.**
///
/// # References
///
/// - Rosenbaum and Zhang, *Deep calibration of the quadratic rough Heston model*,
///   [arXiv:2107.01611v2](https://arxiv.org/abs/2107.01611v2), Section 2 and Appendix A.
/// - *Multi-asset market making under the quadratic rough Heston*,
///   [arXiv:2212.10164v1](https://arxiv.org/abs/2212.10164v1), Section 2.1.
///
/// # Examples
///
/// ```rust
/// use optionstratlib_core::model::types::OptionStyle;
/// use optionstratlib_core::pos_or_panic;
/// use optionstratlib_simulation::simulation::{
///     QuadraticRoughHestonGrid, QuadraticRoughHestonKernel, QuadraticRoughHestonParams,
///     price_vanilla_quadratic_rough_heston,
/// };
/// use rust_decimal_macros::dec;
/// use std::num::NonZeroUsize;
///
/// # fn main() -> Result<(), Box<dyn std::error::Error>> {
/// // Illustrative values, calibrated to nothing.
/// let kernel = QuadraticRoughHestonKernel::try_new(dec!(0.6), 5, dec!(5))?;
/// let params = QuadraticRoughHestonParams::try_new(
///     dec!(0.05),
///     dec!(0.1),
///     dec!(0.04),
///     dec!(1),
///     dec!(0.1),
///     kernel,
///     vec![dec!(0); 5],
///     pos_or_panic!(100.0),
/// )?;
/// let grid = QuadraticRoughHestonGrid::try_new(dec!(0.25), 50)?;
/// let paths = NonZeroUsize::try_from(200_usize)?;
/// let estimate = price_vanilla_quadratic_rough_heston(
///     &params,
///     &grid,
///     OptionStyle::Call,
///     pos_or_panic!(100.0),
///     paths,
///     42,
/// )?;
/// assert!(estimate.price() > dec!(0));
/// # Ok(())
/// # }
/// ```
#[derive(Debug, Clone, PartialEq)]
pub struct QuadraticRoughHestonParams {
    kernel: QuadraticRoughHestonKernel,
    pub(crate) raw: RawParams,
    pub(crate) raw_initial: State,
}

/// The parameters in the `f64` of the kernel.
#[derive(Debug, Clone, Copy, PartialEq)]
pub(crate) struct RawParams {
    pub(crate) a: f64,
    pub(crate) b: f64,
    pub(crate) c: f64,
    pub(crate) lambda: f64,
    pub(crate) eta: f64,
}

impl QuadraticRoughHestonParams {
    /// Validates the parameters and reads the initial state.
    ///
    /// `a >= 0`, `c > 0`, `lambda > 0`, `eta > 0` and a positive `spot`; `b` is free. The
    /// `initial_factors` are the `Z^i_0`, one per factor of the `kernel`.
    ///
    /// # Errors
    ///
    /// - [`QuadraticRoughHestonError::InvalidParameter`] when a parameter breaks its condition.
    /// - [`QuadraticRoughHestonError::InitialFactorCount`] when `initial_factors` does not hold
    ///   one value per factor.
    /// - [`QuadraticRoughHestonError::Decimal`] when the initial `Z` or `V` does not fit a
    ///   `Decimal`, or a parameter has no `f64` value.
    #[allow(clippy::too_many_arguments)]
    pub fn try_new(
        a: Decimal,
        b: Decimal,
        c: Decimal,
        lambda: Decimal,
        eta: Decimal,
        kernel: QuadraticRoughHestonKernel,
        initial_factors: Vec<Decimal>,
        spot: Positive,
    ) -> Result<Self, QuadraticRoughHestonError> {
        if a < Decimal::ZERO {
            return Err(invalid_parameter("a", a, "must not be negative"));
        }
        if c <= Decimal::ZERO {
            return Err(invalid_parameter("c", c, "must be positive"));
        }
        if lambda <= Decimal::ZERO {
            return Err(invalid_parameter("lambda", lambda, "must be positive"));
        }
        if eta <= Decimal::ZERO {
            return Err(invalid_parameter("eta", eta, "must be positive"));
        }
        if spot.to_dec() <= Decimal::ZERO {
            return Err(invalid_parameter("spot", spot.to_dec(), "must be positive"));
        }
        if initial_factors.len() != kernel.factors() {
            return Err(QuadraticRoughHestonError::InitialFactorCount {
                expected: kernel.factors(),
                actual: initial_factors.len(),
            });
        }

        let raw = RawParams {
            a: decimal_to_f64(a)?,
            b: decimal_to_f64(b)?,
            c: decimal_to_f64(c)?,
            lambda: decimal_to_f64(lambda)?,
            eta: decimal_to_f64(eta)?,
        };
        let raw_factors = initial_factors
            .iter()
            .map(|factor| decimal_to_f64(*factor))
            .collect::<Result<Vec<f64>, _>>()?;
        let (z, variance) = read(&kernel.raw_weights, &raw, &raw_factors);
        let raw_initial = State {
            spot: decimal_to_f64(spot.to_dec())?,
            z,
            variance,
            factors: raw_factors,
            // Oracle: the start is the first spot.
            lowest: decimal_to_f64(spot.to_dec())?,
        };
        // Oracle: the library turns `z` and `variance` into `Decimal`s here.

        Ok(Self {
            kernel,
            raw,
            raw_initial,
        })
    }

    /// The kernel.
    #[must_use]
    #[inline]
    pub fn kernel(&self) -> &QuadraticRoughHestonKernel {
        &self.kernel
    }
}

/// One simulated path, by step of the grid from 0 to `N`.
///
/// `spot` and `z` can be negative. See [`QuadraticRoughHestonParams`].
// Oracle: raw doubles.
#[derive(Debug, Clone, PartialEq)]
pub struct QuadraticRoughHestonPath {
    pub(crate) spot: Vec<f64>,
    pub(crate) variance: Vec<f64>,
    pub(crate) z: Vec<f64>,
    pub(crate) factors: Vec<f64>,
}

/// The Monte Carlo price of a vanilla, with its diagnostics.
// Oracle: raw doubles.
#[derive(Debug, Clone, Copy, PartialEq)]
pub struct QuadraticRoughHestonEstimate {
    pub(crate) price: f64,
    pub(crate) standard_error: f64,
    pub(crate) mean_terminal_spot: f64,
    pub(crate) terminal_spot_standard_error: f64,
    pub(crate) paths: usize,
    pub(crate) non_positive_paths: usize,
}

/// `Z = sum c_i Z^i` and `V = a (Z - b)^2 + c`.
#[inline]
pub(crate) fn read(weights: &[f64], raw: &RawParams, factors: &[f64]) -> (f64, f64) {
    let z: f64 = weights
        .iter()
        .zip(factors)
        .map(|(weight, factor)| weight * factor)
        .sum();
    let shifted = z - raw.b;
    (z, raw.a * shifted * shifted + raw.c)
}

/// The state of the scheme at one step, with its `Z` and `V`.
#[derive(Debug, Clone, PartialEq)]
pub(crate) struct State {
    pub(crate) spot: f64,
    pub(crate) z: f64,
    pub(crate) variance: f64,
    pub(crate) factors: Vec<f64>,
    // Oracle: the lowest spot so far, the start included; the library keeps none.
    pub(crate) lowest: f64,
}

/// A value of the state that stopped being finite: the kernel's small form of
/// [`QuadraticRoughHestonError::NonFinite`].
#[derive(Debug, Clone, Copy, PartialEq, Eq)]
pub(crate) struct NonFiniteValue {
    quantity: &'static str,
    step: usize,
}

impl NonFiniteValue {
    #[cold]
    #[inline(never)]
    pub(crate) fn into_error(self) -> QuadraticRoughHestonError {
        QuadraticRoughHestonError::NonFinite {
            quantity: self.quantity,
            step: self.step,
        }
    }
}

impl State {
    /// Every weight is positive, so a factor that is not finite leaves `z` not finite.
    #[inline]
    fn ensure_finite(&self, step: usize) -> Result<(), NonFiniteValue> {
        let quantity = if !self.spot.is_finite() {
            "spot"
        } else if !self.z.is_finite() {
            "z"
        } else if !self.variance.is_finite() {
            "variance"
        } else {
            return Ok(());
        };
        Err(NonFiniteValue { quantity, step })
    }
}

/// One step of the scheme (A.1) from `state` into `next`, for the increment `dw` over `dt`.
///
/// `next` is scratch of the same shape: nothing of it is read, and nothing allocates.
#[inline(always)]
fn step(params: &QuadraticRoughHestonParams, state: &State, dw: f64, dt: f64, next: &mut State) {
    let raw = &params.raw;
    let diffusion = state.variance.sqrt() * dw; // scan-banned: allow -- f64 `sqrt`: returns NaN for negative input, it does not abort; `ensure_finite` rejects it
    let forcing = -raw.lambda * state.z * dt + raw.eta * diffusion;
    next.spot = state.spot + state.spot * diffusion;
    // Oracle: the lowest spot is carried.
    next.lowest = state.lowest.min(next.spot);
    for ((next_factor, factor), discount) in next
        .factors
        .iter_mut()
        .zip(&state.factors)
        .zip(&params.kernel.raw_discounts)
    {
        *next_factor = (factor + forcing) / (1.0 + discount * dt);
    }
    (next.z, next.variance) = read(&params.kernel.raw_weights, raw, &next.factors);
}

/// A run of uniform steps, observed at its end: the grid steps `first_step..=last_step`, each
/// of `dt` years.
#[derive(Debug, Clone, Copy, PartialEq)]
pub(crate) struct Segment {
    pub(crate) dt: f64,
    pub(crate) sqrt_dt: f64,
    pub(crate) first_step: usize,
    pub(crate) last_step: usize,
}

/// The time grid of a Monte Carlo run: segments laid end to end, each observed at its last
/// step. A `QuadraticRoughHestonGrid` is one segment; a calibration lays one per maturity.
#[derive(Debug, Clone, PartialEq)]
pub(crate) struct Schedule {
    pub(crate) segments: Vec<Segment>,
}

impl Schedule {
    /// Segments laid end to end: each `(dt, steps)` is `steps` steps of `dt` years, observed
    /// at its end, and the grid steps count on across them.
    ///
    /// # Errors
    ///
    /// - [`QuadraticRoughHestonError::NonPositiveStep`] when there is no segment, or one has
    ///   a non positive `dt` or no steps.
    /// - [`QuadraticRoughHestonError::BufferTooLarge`] when the steps cannot be counted in a
    ///   `usize`, or the segments cannot be allocated.
    /// - [`QuadraticRoughHestonError::Decimal`] when a `dt` has no `f64` value.
    pub(crate) fn from_segments(
        segments: &[(Decimal, usize)],
    ) -> Result<Self, QuadraticRoughHestonError> {
        if segments.is_empty() {
            return Err(QuadraticRoughHestonError::NonPositiveStep {
                horizon: Decimal::ZERO,
                steps: 0,
            });
        }
        let mut built = reserve(segments.len(), "schedule segments")?;
        let mut last_step = 0_usize;
        for (dt, steps) in segments {
            if *dt <= Decimal::ZERO || *steps == 0 {
                return Err(QuadraticRoughHestonError::NonPositiveStep {
                    horizon: dt.checked_mul(Decimal::from(*steps)).unwrap_or(*dt),
                    steps: *steps,
                });
            }
            let too_many = || QuadraticRoughHestonError::BufferTooLarge {
                buffer: "schedule steps",
                len: *steps,
            };
            let first_step = last_step.checked_add(1).ok_or_else(too_many)?;
            last_step = last_step.checked_add(*steps).ok_or_else(too_many)?;
            let raw_dt = decimal_to_f64(*dt)?;
            built.push(Segment {
                dt: raw_dt,
                sqrt_dt: raw_dt.sqrt(), // scan-banned: allow -- f64 `sqrt` of a positive finite value: finite, and it does not abort
                first_step,
                last_step,
            });
        }
        Ok(Self { segments: built })
    }
}

/// The state of one path, and the `next` scratch of its steps.
pub(crate) struct Walk<'a> {
    params: &'a QuadraticRoughHestonParams,
    // Oracle: the library holds a generator.
    draws: std::slice::Iter<'a, f64>,
    pub(crate) state: State,
    scratch: State,
}

impl<'a> Walk<'a> {
    pub(crate) fn new(params: &'a QuadraticRoughHestonParams, draws: &'a [f64]) -> Self {
        Self {
            params,
            draws: draws.iter(),
            state: params.raw_initial.clone(),
            scratch: params.raw_initial.clone(),
        }
    }

    /// Moves to grid step `to` by one step of `segment`, drawing its normal increment.
    // Oracle: the draw is the next one supplied.
    #[inline]
    fn advance(&mut self, segment: &Segment, to: usize) -> Result<(), NonFiniteValue> {
        let normal: f64 = *self.draws.next().expect("a draw for each step");
        self.apply(segment.sqrt_dt * normal, segment.dt, to)
    }

    /// Moves to grid step `to` on the increment `dw` over `dt`.
    #[inline]
    pub(crate) fn apply(&mut self, dw: f64, dt: f64, to: usize) -> Result<(), NonFiniteValue> {
        step(self.params, &self.state, dw, dt, &mut self.scratch);
        std::mem::swap(&mut self.state, &mut self.scratch);
        self.state.ensure_finite(to)
    }
}

/// Simulates one path of the model by the scheme (A.1), from `seed`.
///
/// The same arguments give the same path on the same build and platform. Across platforms the
/// `f64` `exp`, `ln` and `sin` may round differently. See [`QuadraticRoughHestonParams`] for
/// the model and the scheme.
///
/// # Errors
///
/// - [`QuadraticRoughHestonError::NonFinite`] when the state stops being finite, with its step.
/// - [`QuadraticRoughHestonError::BufferTooLarge`] when the path cannot be allocated.
/// - [`QuadraticRoughHestonError::Decimal`] when a value does not fit a `Decimal`.
// Oracle: over a schedule of several segments and supplied draws.
pub fn simulate_quadratic_rough_heston_path(
    params: &QuadraticRoughHestonParams,
    schedule: &Schedule,
    draws: &[f64],
) -> Result<QuadraticRoughHestonPath, QuadraticRoughHestonError> {
    let mut path = QuadraticRoughHestonPath {
        spot: Vec::new(),
        variance: Vec::new(),
        z: Vec::new(),
        factors: Vec::new(),
    };

    let mut walk = Walk::new(params, draws);
    record(&mut path, &walk.state)?;
    for segment in &schedule.segments {
        for to in segment.first_step..=segment.last_step {
            walk.advance(segment, to)
                .map_err(NonFiniteValue::into_error)?;
            record(&mut path, &walk.state)?;
        }
    }
    Ok(path)
}

/// Appends `state` to `path`.
fn record(
    path: &mut QuadraticRoughHestonPath,
    state: &State,
) -> Result<(), QuadraticRoughHestonError> {
    path.spot.push(state.spot);
    path.variance.push(state.variance);
    path.z.push(state.z);
    for factor in &state.factors {
        path.factors.push(*factor);
    }
    Ok(())
}

/// What a Monte Carlo run keeps of one path: what its observer recorded, and whether the spot
/// was non positive at some step.
#[derive(Debug, Clone, Copy, PartialEq)]
pub(crate) struct PathRun<A> {
    pub(crate) observed: A,
    pub(crate) non_positive: bool,
}

/// Runs one path over `schedule` without recording it, calling `observe` with the index of
/// each segment and the state at its end.
fn run_path<A, F>(
    params: &QuadraticRoughHestonParams,
    schedule: &Schedule,
    draws: &[f64],
    observe: &F,
) -> Result<PathRun<A>, NonFiniteValue>
where
    A: Default,
    F: Fn(usize, &State, &mut A),
{
    let mut walk = Walk::new(params, draws);
    let mut observed = A::default();
    let mut non_positive = false;
    for (index, segment) in schedule.segments.iter().enumerate() {
        // The steps count across segments, for the error of a path that stops being finite.
        for to in segment.first_step..=segment.last_step {
            walk.advance(segment, to)?;
            non_positive |= walk.state.spot <= 0.0;
        }
        observe(index, &walk.state, &mut observed);
    }
    Ok(PathRun {
        observed,
        non_positive,
    })
}

/// Runs `paths` paths over `schedule` in parallel, one per seed of a master generator seeded
/// with `seed`, and returns what `observe` recorded on each.
///
/// The seeds are drawn serially and the runs come back in their order, so the result does
/// not depend on the number of threads of the rayon pool it runs on. A path that fails makes
/// the run fail, and the failure reported is the one of the first such path.
///
/// # Errors
///
/// - [`QuadraticRoughHestonError::InvalidParameter`] for a single path, which has no standard
///   error.
/// - [`QuadraticRoughHestonError::NonFinite`] when a path stops being finite, with its step.
/// - [`QuadraticRoughHestonError::BufferTooLarge`] when `paths` cannot be allocated.
pub(crate) fn run_paths<A, F>(
    params: &QuadraticRoughHestonParams,
    schedule: &Schedule,
    paths: NonZeroUsize,
    draws: &[Vec<f64>],
    observe: F,
) -> Result<Vec<PathRun<A>>, QuadraticRoughHestonError>
where
    A: Default + Send,
    F: Fn(usize, &State, &mut A) + Sync,
{
    let path_count = paths.get();
    if path_count < MIN_PATHS {
        return Err(invalid_parameter(
            "paths",
            Decimal::from(path_count),
            "a standard error needs at least two paths",
        ));
    }

    // Oracle: the library draws one seed per path here.
    assert_eq!(draws.len(), path_count, "a list of draws for each path");

    let mut outcomes = reserve(path_count, "path outcomes")?;
    // Oracle: the library runs the paths in parallel.
    outcomes.extend(
        draws
            .iter()
            .map(|path_draws| run_path(params, schedule, path_draws, &observe)),
    );

    outcomes
        .into_iter()
        .map(|outcome| outcome.map_err(NonFiniteValue::into_error))
        .collect()
}

/// The running mean and squared deviations of Welford's algorithm.
#[derive(Debug, Clone, Copy, Default, PartialEq)]
pub(crate) struct Moments {
    count: f64,
    mean: f64,
    squared_deviations: f64,
}

impl Moments {
    #[inline]
    pub(crate) fn add(&mut self, value: f64) {
        self.count += 1.0;
        let deviation = value - self.mean;
        self.mean += deviation / self.count;
        self.squared_deviations += deviation * (value - self.mean);
    }

    /// The mean, in `f64`.
    #[inline]
    pub(crate) fn mean(&self) -> f64 {
        self.mean
    }

    /// The mean and its standard error, as `Decimal`s. Needs two values or more.
    // Oracle: as raw doubles.
    pub(crate) fn estimate(&self) -> Result<(f64, f64), QuadraticRoughHestonError> {
        let variance_of_mean = self.squared_deviations / (self.count - 1.0) / self.count;
        Ok((
            self.mean,
            variance_of_mean.sqrt(), // scan-banned: allow -- f64 `sqrt`: returns NaN for negative input, it does not abort; `f64_to_decimal` rejects it
        ))
    }
}

/// Prices a European call or put on `S_T` by Monte Carlo, undiscounted, as with `r = q = 0`.
///
/// One path is drawn per seed of a master generator seeded with `seed`. The seeds are drawn
/// serially and the paths summed in their order, so the result does not depend on the number
/// of threads of the rayon pool it runs on. A path that fails makes the price fail, and the
/// failure reported is the one of the first such path. See [`QuadraticRoughHestonParams`] for
/// the model, the scheme and the treatment of a spot that goes negative.
///
/// # Errors
///
/// - [`QuadraticRoughHestonError::InvalidParameter`] for a single path, which has no standard
///   error.
/// - [`QuadraticRoughHestonError::NonFinite`] when a path stops being finite, with its step.
/// - [`QuadraticRoughHestonError::BufferTooLarge`] when `paths` cannot be allocated.
/// - [`QuadraticRoughHestonError::Decimal`] when `strike` has no `f64` value or a result does
///   not fit a `Decimal`.
// Oracle: over a schedule of several segments and supplied draws, one list per path; and of a
// mirrored batch, which the library does not have, the average of each pair goes to the moments.
pub fn price_vanilla_quadratic_rough_heston(
    params: &QuadraticRoughHestonParams,
    schedule: &Schedule,
    style: OptionStyle,
    strike: Positive,
    mirrored: bool,
    paths: NonZeroUsize,
    draws: &[Vec<f64>],
) -> Result<QuadraticRoughHestonEstimate, QuadraticRoughHestonError> {
    let runs = run_paths(
        params,
        schedule,
        paths,
        draws,
        |_, state: &State, spot: &mut f64| {
            *spot = state.spot;
        },
    )?;
    let raw_strike = decimal_to_f64(strike.to_dec())?;

    let non_positive_paths = runs.iter().filter(|run| run.non_positive).count();
    let mut payoff = Moments::default();
    let mut terminal = Moments::default();
    let paid = |run: &PathRun<f64>| match style {
        OptionStyle::Call => (run.observed - raw_strike).max(0.0),
        OptionStyle::Put => (raw_strike - run.observed).max(0.0),
    };
    for sample in runs.chunks_exact(samples::size(mirrored)) {
        payoff.add(samples::mean(sample, paid));
        terminal.add(samples::mean(sample, |run| run.observed));
    }

    let (price, standard_error) = payoff.estimate()?;
    let (mean_terminal_spot, terminal_spot_standard_error) = terminal.estimate()?;
    Ok(QuadraticRoughHestonEstimate {
        price,
        standard_error,
        mean_terminal_spot,
        terminal_spot_standard_error,
        paths: runs.len(),
        non_positive_paths,
    })
}
