/******************************************************************************
   Author: Joaquín Béjar García
   Email: jb@taunais.com
   Date: 7/11/26
******************************************************************************/

//! The VIX under the multi-factor quadratic rough Heston model: the index as a function of
//! the factor state, from the conditional moments of the variance, and Monte Carlo prices of
//! VIX futures and options on it. [`QuadraticRoughHestonVix`] documents the method.

// Oracle: what is changed is marked `Oracle:`. Everywhere, `pub(super)` became `pub(crate)`, draws are
// supplied instead of generated, and results stay raw doubles, where the library turns them into a
// `Decimal`. `thirty_days`, the getters and the attributes of `tracing` are left out.

use super::decimal::decimal_to_f64;
use super::error::QuadraticRoughHestonError;
use super::quadratic_rough_heston::{
    Moments, QuadraticRoughHestonParams, Schedule, State, invalid_parameter, reserve, run_paths,
};
use super::stand_in::{Decimal, OptionStyle, Positive, ToPrimitive};
use std::num::NonZeroUsize;

/// `100^2`: the index is quoted in volatility points.
const INDEX_SCALE: f64 = 10_000.0;

/// The scaled matrix of the exponential has a 1-norm at most this. With it, the Taylor series
/// of degree [`EXPM_TAYLOR_DEGREE`] has a remainder below `2e-23` in norm.
const EXPM_SCALED_NORM: f64 = 0.5;

/// The degree of the Taylor polynomial of the scaled exponential.
const EXPM_TAYLOR_DEGREE: usize = 18;

/// A square matrix in `f64`, row-major.
#[derive(Debug, Clone, PartialEq)]
pub(crate) struct Matrix {
    dim: usize,
    pub(crate) entries: Vec<f64>,
}

// Oracle: how `exponential` takes the number of squarings from the norm. The library has the one
// way, `squarings_by_log2`.
pub(crate) type Squarings = fn(f64) -> Option<i32>;

/// The number of squarings of the library: by a rounded `log2`.
pub(crate) fn squarings_by_log2(norm: f64) -> Option<i32> {
    if norm > EXPM_SCALED_NORM {
        (norm / EXPM_SCALED_NORM)
            .log2() // scan-banned: allow -- f64 `log2` of a value above one: positive and finite, and it does not abort
            .ceil()
            .to_i32()
    } else {
        Some(0)
    }
}

impl Matrix {
    // Oracle: test-only access.
    /// The matrix of the given entries.
    pub(crate) fn from_entries(dim: usize, entries: &[f64]) -> Self {
        assert_eq!(entries.len(), dim * dim);
        Self {
            dim,
            entries: entries.to_vec(),
        }
    }

    /// `dim` must be positive: the row iterators below are `chunks_exact(dim)`, and the
    /// moment system has at least its integral and its constant.
    fn zeros(dim: usize) -> Result<Self, QuadraticRoughHestonError> {
        debug_assert!(dim > 0, "a matrix needs a positive dimension");
        let len = dim
            .checked_mul(dim)
            .ok_or(QuadraticRoughHestonError::BufferTooLarge {
                buffer: "moment matrix",
                len: dim,
            })?;
        let mut entries = reserve(len, "moment matrix")?;
        entries.resize(len, 0.0);
        Ok(Self { dim, entries })
    }

    fn identity(dim: usize) -> Result<Self, QuadraticRoughHestonError> {
        let mut identity = Self::zeros(dim)?;
        identity.add_diagonal(1.0);
        Ok(identity)
    }

    /// The row `row`, or an empty slice past the end.
    #[inline]
    fn row(&self, row: usize) -> &[f64] {
        self.entries.chunks_exact(self.dim).nth(row).unwrap_or(&[])
    }

    /// The entry at `row`, `column`, or `None` past the end.
    #[inline]
    fn entry_mut(&mut self, row: usize, column: usize) -> Option<&mut f64> {
        self.entries
            .chunks_exact_mut(self.dim)
            .nth(row)
            .and_then(|entries| entries.get_mut(column))
    }

    #[inline]
    fn set(&mut self, row: usize, column: usize, value: f64) {
        if let Some(entry) = self.entry_mut(row, column) {
            *entry = value;
        }
    }

    #[inline]
    fn add_to(&mut self, row: usize, column: usize, value: f64) {
        if let Some(entry) = self.entry_mut(row, column) {
            *entry += value;
        }
    }

    fn add_diagonal(&mut self, value: f64) {
        for (index, row) in self.entries.chunks_exact_mut(self.dim).enumerate() {
            if let Some(entry) = row.get_mut(index) {
                *entry += value;
            }
        }
    }

    /// The 1-norm: the largest column sum of absolute values.
    pub(crate) fn norm_1(&self) -> f64 {
        let mut sums = vec![0.0_f64; self.dim];
        for row in self.entries.chunks_exact(self.dim) {
            for (sum, entry) in sums.iter_mut().zip(row) {
                *sum += entry.abs();
            }
        }
        sums.into_iter().fold(0.0, f64::max)
    }

    fn scale(&mut self, factor: f64) {
        for entry in &mut self.entries {
            *entry *= factor;
        }
    }

    /// `self * other`, into `into`, a scratch of the same dimension.
    fn multiply_into(&self, other: &Self, into: &mut Self) {
        let dim = self.dim;
        into.entries.fill(0.0);
        for (left_row, out_row) in self
            .entries
            .chunks_exact(dim)
            .zip(into.entries.chunks_exact_mut(dim))
        {
            for (left, right_row) in left_row.iter().zip(other.entries.chunks_exact(dim)) {
                if *left == 0.0 {
                    continue;
                }
                for (out, right) in out_row.iter_mut().zip(right_row) {
                    *out += left * right;
                }
            }
        }
    }

    pub(crate) fn is_finite(&self) -> bool {
        self.entries.iter().all(|entry| entry.is_finite())
    }

    /// The matrix exponential by scaling and squaring with a Taylor polynomial: `self / 2^s`
    /// has a 1-norm at most [`EXPM_SCALED_NORM`], its exponential is the polynomial of degree
    /// [`EXPM_TAYLOR_DEGREE`], and the result is squared `s` times.
    ///
    /// Returns `None` when the matrix is not finite, or so large that its scaling has no
    /// representable exponent.
    // Oracle: the number of squarings is taken by a given function.
    pub(crate) fn exponential(
        &self,
        squarings: Squarings,
    ) -> Result<Option<Self>, QuadraticRoughHestonError> {
        let dim = self.dim;
        let norm = self.norm_1();
        if !norm.is_finite() {
            return Ok(None);
        }
        let squarings = squarings(norm);
        let Some(squarings) = squarings.filter(|count| *count >= 0) else {
            return Ok(None);
        };
        let mut scaled = self.clone();
        scaled.scale(0.5_f64.powi(squarings));

        // Horner: `I + A (I + A/2 (I + A/3 (...)))`.
        let mut result = Self::identity(dim)?;
        let mut scratch = Self::zeros(dim)?;
        for degree in (1..=EXPM_TAYLOR_DEGREE).rev() {
            scaled.multiply_into(&result, &mut scratch);
            scratch.scale(1.0 / degree as f64);
            scratch.add_diagonal(1.0);
            std::mem::swap(&mut result, &mut scratch);
        }
        let mut squared = Self::zeros(dim)?;
        for _ in 0..squarings {
            result.multiply_into(&result, &mut squared);
            std::mem::swap(&mut result, &mut squared);
        }
        Ok(Some(result))
    }
}

/// The column of each second moment `M_ij` in the state vector, as a table by `i` and `j`:
/// the pairs `i <= j` are packed by rows, `(0,0), (0,1), ..., (0,n-1), (1,1), ...`, after the
/// `n` first moments, and the table is symmetric.
fn pair_columns(factors: usize) -> Result<Vec<Vec<usize>>, QuadraticRoughHestonError> {
    let mut table = reserve(factors, "moment columns")?;
    for _ in 0..factors {
        let mut row = reserve(factors, "moment columns")?;
        row.resize(factors, 0);
        table.push(row);
    }
    let pairs = (0..factors).flat_map(|i| (i..factors).map(move |j| (i, j)));
    for (column, (i, j)) in (factors..).zip(pairs) {
        if let Some(entry) = table.get_mut(i).and_then(|row| row.get_mut(j)) {
            *entry = column;
        }
        if let Some(entry) = table.get_mut(j).and_then(|row| row.get_mut(i)) {
            *entry = column;
        }
    }
    Ok(table)
}

/// The VIX of the model as a function of the factor state.
///
/// # Definition
///
/// At a date `t` with factors `Z^i_t`, over a window of `Delta` years,
///
/// ```text
/// VIX_t^2 = (100^2 / Delta) E[ int_t^(t+Delta) V_s ds | F_t ]
/// ```
///
/// which is the index in volatility points, 20 for a variance swap rate of 4% per year. The
/// model has no jumps and no rates, so this is the variance swap rate, and it depends on the
/// factors alone: the spot plays no part.
///
/// # Method
///
/// The factors are affine, `dZ^i = (-gamma_i Z^i - lambda Z) dt + eta sqrt(V) dW`, and the
/// variance `V = a (Z - b)^2 + c` is quadratic in them, so the conditional first moments
/// `m_i(s) = E[Z^i_s | F_t]` and second moments `M_ij(s) = E[Z^i_s Z^j_s | F_t]` solve a
/// closed linear system:
///
/// ```text
/// m_i'  = -gamma_i m_i - lambda sum_k c_k m_k
/// M_ij' = -(gamma_i + gamma_j) M_ij - lambda sum_k c_k (M_kj + M_ik) + eta^2 E[V_s | F_t]
/// E[V_s | F_t] = a (sum_kl c_k c_l M_kl - 2 b sum_k c_k m_k + b^2) + c
/// ```
///
/// from `m_i(0) = Z^i_t` and `M_ij(0) = Z^i_t Z^j_t`. The system, with the running integral
/// of `E[V_s | F_t]` and a constant appended, is `y' = G y` for a constant `G`, so
/// `y(Delta) = exp(G Delta) y(0)`, and the integral is one row of the exponential applied to
/// the initial state. That row makes `VIX_t^2` a quadratic form in the factors, which
/// [`try_new`](Self::try_new) computes once per parameter set, by the scaling and squaring of
/// a Taylor polynomial, and [`squared_at`](Self::squared_at) evaluates in `O(n^2)`. No Monte
/// Carlo and no nested simulation is involved, and the value is the model's, not the one of
/// a discretization of it.
///
/// # Cost
///
/// The exponential is of a matrix of dimension `n + n (n + 1) / 2 + 2`, so the construction is
/// `O(n^6)` in the number of factors: milliseconds for `n = 10`, seconds for `n = 30`. One
/// evaluation is `O(n^2)`.
///
/// # References
///
/// - Rosenbaum and Zhang, *Deep calibration of the quadratic rough Heston model*,
///   [arXiv:2107.01611v2](https://arxiv.org/abs/2107.01611v2), Section 2, for the model and
///   the joint SPX and VIX calibration it serves.
/// - Gatheral, Jusselin and Rosenbaum, *The quadratic rough Heston model and the joint S&P
///   500/VIX smile calibration problem*, [arXiv:2001.01789](https://arxiv.org/abs/2001.01789),
///   for the definition of the VIX in the model.
///
/// # Examples
///
/// ```rust
/// use optionstratlib_core::pos_or_panic;
/// use optionstratlib_simulation::simulation::{
///     QuadraticRoughHestonKernel, QuadraticRoughHestonParams, QuadraticRoughHestonVix,
/// };
/// use rust_decimal_macros::dec;
///
/// # fn main() -> Result<(), Box<dyn std::error::Error>> {
/// // Illustrative values, calibrated to nothing.
/// let kernel = QuadraticRoughHestonKernel::try_new(dec!(0.6), 5, dec!(5))?;
/// let params = QuadraticRoughHestonParams::try_new(
///     dec!(0.05),
///     dec!(0.1),
///     dec!(0.04),
///     dec!(1),
///     dec!(0.1),
///     kernel,
///     vec![dec!(0); 5],
///     pos_or_panic!(100.0),
/// )?;
/// let vix = QuadraticRoughHestonVix::thirty_days(&params)?;
/// let today = vix.at(params.initial_factors())?;
/// // `V >= c = 0.04` everywhere, so the index is at least 20 points.
/// assert!(today >= pos_or_panic!(20.0));
/// # Ok(())
/// # }
/// ```
#[derive(Debug, Clone, PartialEq)]
pub struct QuadraticRoughHestonVix {
    factors: usize,
    /// `100^2 / Delta`.
    scale: f64,
    /// The coefficient of each `Z^i_t`.
    linear: Vec<f64>,
    /// The coefficient of each `Z^i_t Z^j_t`, `i <= j`, packed by [`pair_columns`].
    pairs: Vec<f64>,
    constant: f64,
}

impl QuadraticRoughHestonVix {
    /// Builds the index of `params` over a window of `window` years.
    ///
    /// # Errors
    ///
    /// - [`QuadraticRoughHestonError::InvalidParameter`] when `window` is zero.
    /// - [`QuadraticRoughHestonError::VixMomentsNotFinite`] when the conditional moments grow
    ///   beyond an `f64` within the window.
    /// - [`QuadraticRoughHestonError::BufferTooLarge`] when the moment system cannot be
    ///   allocated.
    /// - [`QuadraticRoughHestonError::Decimal`] when `window` has no `f64` value.
    // Oracle: the number of squarings is taken by a given function, and the generator is built in a
    // function of its own, with its text.
    pub(crate) fn try_new(
        params: &QuadraticRoughHestonParams,
        window: Positive,
        squarings: Squarings,
    ) -> Result<Self, QuadraticRoughHestonError> {
        if window.is_zero() {
            return Err(invalid_parameter(
                "window",
                window.to_dec(),
                "must be positive",
            ));
        }
        let delta = decimal_to_f64(window.to_dec())?;
        let factors = params.kernel().factors();
        let pair_count = (0..factors).flat_map(|i| i..factors).count();
        let integral_index = factors
            .checked_add(pair_count)
            .ok_or_else(|| too_many_factors(factors))?;
        let one_index = integral_index
            .checked_add(1)
            .ok_or_else(|| too_many_factors(factors))?;
        let generator = Self::generator(params, delta)?;
        let exponential = generator
            .exponential(squarings)?
            .filter(Matrix::is_finite)
            .ok_or_else(|| QuadraticRoughHestonError::VixMomentsNotFinite {
                window: window.to_dec(),
            })?;
        let integral_row = exponential.row(integral_index);
        let linear = integral_row.get(..factors).unwrap_or(&[]).to_vec();
        let pairs = integral_row
            .get(factors..integral_index)
            .unwrap_or(&[])
            .to_vec();
        let constant = integral_row.get(one_index).copied().unwrap_or(f64::NAN);
        if linear.len() != factors || pairs.len() != pair_count || !constant.is_finite() {
            return Err(QuadraticRoughHestonError::VixMomentsNotFinite {
                window: window.to_dec(),
            });
        }

        Ok(Self {
            factors,
            scale: INDEX_SCALE / delta,
            linear,
            pairs,
            constant,
        })
    }

    /// The generator of the moment system, times the window.
    // Oracle: a part of `try_new`.
    pub(crate) fn generator(
        params: &QuadraticRoughHestonParams,
        delta: f64,
    ) -> Result<Matrix, QuadraticRoughHestonError> {
        let kernel = params.kernel();
        let factors = kernel.factors();
        let weights = &kernel.raw_weights;
        let discounts = &kernel.raw_discounts;
        let raw = &params.raw;

        // The state `y = (m_1..m_n, M_11, M_12, .., M_nn, w, 1)`, with `w` the running
        // integral of `E[V]`.
        let columns = pair_columns(factors)?;
        let pair = |i: usize, j: usize| -> usize {
            columns
                .get(i)
                .and_then(|row| row.get(j))
                .copied()
                .unwrap_or(usize::MAX)
        };
        let pair_count = (0..factors).flat_map(|i| i..factors).count();
        let integral_index = factors
            .checked_add(pair_count)
            .ok_or_else(|| too_many_factors(factors))?;
        let one_index = integral_index
            .checked_add(1)
            .ok_or_else(|| too_many_factors(factors))?;
        let dim = one_index
            .checked_add(1)
            .ok_or_else(|| too_many_factors(factors))?;

        let mut generator = Matrix::zeros(dim)?;
        // First moments: `m_i' = -gamma_i m_i - lambda sum_k c_k m_k`.
        for i in 0..factors {
            generator.add_to(i, i, -discounts.get(i).copied().unwrap_or(f64::NAN));
            for (k, weight) in weights.iter().enumerate() {
                generator.add_to(i, k, -raw.lambda * weight);
            }
        }
        // `E[V]` as a row over the state: `a sum_kl c_k c_l M_kl - 2 a b sum_k c_k m_k`, and
        // `a b^2 + c` on the constant.
        let mut variance_row = vec![0.0_f64; dim];
        for (k, weight_k) in weights.iter().enumerate() {
            if let Some(entry) = variance_row.get_mut(k) {
                *entry = -2.0 * raw.a * raw.b * weight_k;
            }
            for (l, weight_l) in weights.iter().enumerate().skip(k) {
                let multiplicity = if k == l { 1.0 } else { 2.0 };
                if let Some(entry) = variance_row.get_mut(pair(k, l)) {
                    *entry = multiplicity * raw.a * weight_k * weight_l;
                }
            }
        }
        if let Some(entry) = variance_row.get_mut(one_index) {
            *entry = raw.a * raw.b * raw.b + raw.c;
        }
        // Second moments: `M_ij' = -(gamma_i + gamma_j) M_ij - lambda sum_k c_k (M_kj + M_ik)
        // + eta^2 E[V]`.
        let eta_squared = raw.eta * raw.eta;
        for i in 0..factors {
            for j in i..factors {
                let row = pair(i, j);
                let decay = discounts.get(i).copied().unwrap_or(f64::NAN)
                    + discounts.get(j).copied().unwrap_or(f64::NAN);
                generator.add_to(row, row, -decay);
                for (k, weight) in weights.iter().enumerate() {
                    generator.add_to(row, pair(k, j), -raw.lambda * weight);
                    generator.add_to(row, pair(i, k), -raw.lambda * weight);
                }
                for (column, coefficient) in variance_row.iter().enumerate() {
                    generator.add_to(row, column, eta_squared * coefficient);
                }
            }
        }
        // The integral: `w' = E[V]`. The constant has no dynamics.
        for (column, coefficient) in variance_row.iter().enumerate() {
            generator.set(integral_index, column, *coefficient);
        }

        generator.scale(delta);
        Ok(generator)
    }

    /// `VIX_t^2`, in squared volatility points, at the raw factor state.
    ///
    /// `factors` must hold `n` values: the sum runs over what it holds.
    #[inline]
    pub(crate) fn raw_squared(&self, factors: &[f64]) -> f64 {
        let mut value = self.constant;
        for (coefficient, factor) in self.linear.iter().zip(factors) {
            value += coefficient * factor;
        }
        let mut pairs = self.pairs.iter();
        for (i, factor_i) in factors.iter().enumerate() {
            for factor_j in factors.iter().skip(i) {
                let Some(coefficient) = pairs.next() else {
                    return f64::NAN;
                };
                value += coefficient * factor_i * factor_j;
            }
        }
        self.scale * value
    }

    /// `VIX_t^2` at the factor state `factors`, the `Z^i_t`, in squared volatility points.
    ///
    /// # Errors
    ///
    /// - [`QuadraticRoughHestonError::InitialFactorCount`] when `factors` does not hold one
    ///   value per factor.
    /// - [`QuadraticRoughHestonError::VixNotPositive`] when the value is not finite or not
    ///   above zero, which a finite state cannot produce: `V >= c > 0`.
    /// - [`QuadraticRoughHestonError::Decimal`] when a factor has no `f64` value or the result
    ///   does not fit a `Decimal`.
    // Oracle: as a raw double.
    pub fn squared_at(&self, factors: &[Decimal]) -> Result<f64, QuadraticRoughHestonError> {
        self.checked_squared_at(factors)
    }

    /// `VIX_t` at the factor state `factors`, the `Z^i_t`, in volatility points.
    ///
    /// # Errors
    ///
    /// As [`squared_at`](Self::squared_at).
    // Oracle: as a raw double; the library refuses an index that becomes a zero `Decimal`.
    pub fn at(&self, factors: &[Decimal]) -> Result<f64, QuadraticRoughHestonError> {
        let squared = self.checked_squared_at(factors)?;
        Ok(squared.sqrt()) // scan-banned: allow -- f64 `sqrt` of a positive finite value: finite, and it does not abort
    }

    /// `VIX_t^2` in `f64`, validated.
    fn checked_squared_at(&self, factors: &[Decimal]) -> Result<f64, QuadraticRoughHestonError> {
        if factors.len() != self.factors {
            return Err(QuadraticRoughHestonError::InitialFactorCount {
                expected: self.factors,
                actual: factors.len(),
            });
        }
        let mut raw = reserve(factors.len(), "vix factors")?;
        for factor in factors {
            raw.push(decimal_to_f64(*factor)?);
        }
        checked_vix_squared(self.raw_squared(&raw))
    }
}

/// `squared` when it is finite and positive, or the typed error.
#[inline]
pub(crate) fn checked_vix_squared(squared: f64) -> Result<f64, QuadraticRoughHestonError> {
    if !squared.is_finite() {
        return Err(QuadraticRoughHestonError::VixNotPositive {
            reason: "the conditional variance is not finite",
        });
    }
    if squared <= 0.0 {
        return Err(QuadraticRoughHestonError::VixNotPositive {
            reason: "the conditional variance is not above zero",
        });
    }
    Ok(squared)
}

#[cold]
#[inline(never)]
fn too_many_factors(factors: usize) -> QuadraticRoughHestonError {
    QuadraticRoughHestonError::BufferTooLarge {
        buffer: "moment system",
        len: factors,
    }
}

/// What a VIX instrument pays at its maturity `T`, in volatility points.
#[derive(Debug, Clone, Copy, PartialEq, Eq)]
pub enum QuadraticRoughHestonVixPayoff {
    /// The future: `VIX_T` itself, so the price is `E[VIX_T]`.
    Future,
    /// A vanilla on the index: `(VIX_T - K)^+` for a call, `(K - VIX_T)^+` for a put.
    Vanilla {
        /// Call or put.
        style: OptionStyle,
        /// The strike `K`, in volatility points.
        strike: Positive,
    },
}

/// The Monte Carlo price of a VIX instrument, with the future on the same paths.
// Oracle: raw doubles.
#[derive(Debug, Clone, Copy, PartialEq)]
pub struct QuadraticRoughHestonVixEstimate {
    pub(crate) price: f64,
    pub(crate) standard_error: f64,
    pub(crate) future: f64,
    pub(crate) future_standard_error: f64,
    pub(crate) paths: usize,
}

/// Prices a VIX future or a vanilla on the index by Monte Carlo, undiscounted, as with
/// `r = q = 0`.
///
/// The factors are simulated to the horizon `T` of `grid` by the scheme (A.1), and on each
/// path `VIX_T` is read from the terminal factors by the [`QuadraticRoughHestonVix`] of
/// `params` over `window` years. The paths are those of
/// [`price_vanilla_quadratic_rough_heston`](super::price_vanilla_quadratic_rough_heston) at
/// the same `seed`, so a vanilla on the spot and an instrument on the index at one seed
/// share their noise. The estimate carries the future on the same paths whatever the
/// payoff. See [`QuadraticRoughHestonParams`] for the scheme and the caution on one run.
///
/// # Errors
///
/// - [`QuadraticRoughHestonError::InvalidParameter`] for a single path, which has no standard
///   error, or a zero `window`.
/// - [`QuadraticRoughHestonError::VixMomentsNotFinite`] when the conditional moments grow
///   beyond an `f64` within the window.
/// - [`QuadraticRoughHestonError::NonFinite`] when a path stops being finite, with its step.
/// - [`QuadraticRoughHestonError::VixNotPositive`] when the index of a path has no positive
///   finite value.
/// - [`QuadraticRoughHestonError::BufferTooLarge`] when `paths` cannot be allocated.
/// - [`QuadraticRoughHestonError::Decimal`] when a strike or the window has no `f64` value, or
///   a result does not fit a `Decimal`.
// Oracle: over a schedule of several segments and supplied draws, one list per path, with the index
// already built.
pub fn price_vix_quadratic_rough_heston(
    params: &QuadraticRoughHestonParams,
    schedule: &Schedule,
    vix: &QuadraticRoughHestonVix,
    payoff: QuadraticRoughHestonVixPayoff,
    paths: NonZeroUsize,
    draws: &[Vec<f64>],
) -> Result<QuadraticRoughHestonVixEstimate, QuadraticRoughHestonError> {
    let raw_payoff = match payoff {
        QuadraticRoughHestonVixPayoff::Future => None,
        QuadraticRoughHestonVixPayoff::Vanilla { style, strike } => {
            Some((style, decimal_to_f64(strike.to_dec())?))
        }
    };
    let runs = run_paths(
        params,
        schedule,
        paths,
        draws,
        |_, state: &State, squared: &mut f64| {
            *squared = vix.raw_squared(&state.factors);
        },
    )?;

    let mut payoffs = Moments::default();
    let mut futures = Moments::default();
    for run in &runs {
        let index = checked_vix_squared(run.observed)?.sqrt(); // scan-banned: allow -- f64 `sqrt` of a positive finite value: finite, and it does not abort
        payoffs.add(match raw_payoff {
            None => index,
            Some((OptionStyle::Call, strike)) => (index - strike).max(0.0),
            Some((OptionStyle::Put, strike)) => (strike - index).max(0.0),
        });
        futures.add(index);
    }

    let (price, standard_error) = payoffs.estimate()?;
    let (future, future_standard_error) = futures.estimate()?;
    Ok(QuadraticRoughHestonVixEstimate {
        price,
        standard_error,
        future,
        future_standard_error,
        paths: runs.len(),
    })
}
