//! Index options and VIX contracts under the quadratic rough Heston model, from draws that you
//! supply.
//!
//! The calls are those of a core whose every function is proved to meet its contract. This crate
//! gives them Rust's types: a [`Decimal`] from a text or from parts, a [`Model`], a [`Schedule`],
//! payoffs, and a [`Refusal`] that says what was wrong with the input. It has no dependency but the
//! core's static library, which `qrh-sys` links: it is looked for in the folder `QRH_LIB_DIR`, or
//! else in the repository's `target/staticlib`.
//!
//! No call allocates: tables and workspaces are lent as slices, and [`Path`] makes the tables of a
//! trace for you. The calls keep nothing and may run on many threads at once.
//!
//! # Example
//!
//! A call over two paths, each of one step. The spots at the end are written to a lent table.
//!
//! ```
//! use qrh::{Decimal, Model, Refusal, Schedule, Vanilla};
//!
//! let model = Model {
//!     weights: vec![1.0],
//!     discounts: vec![4.0],
//!     a: Decimal::ONE,
//!     b: Decimal::ZERO,
//!     c: Decimal::from(4),
//!     lambda: Decimal::ONE,
//!     eta: Decimal::ONE,
//!     spot: Decimal::from(100),
//!     factors: vec![Decimal::ZERO],
//! };
//! let schedule = Schedule::from([("0.25".parse()?, 1)]);
//! let call = Vanilla::call("100".parse()?);
//!
//! let mut spots = [0.0; 2];
//! let estimate = qrh::vanilla(&model, &schedule, &call, 2, &[0.5, -1.0], &mut spots)?;
//! assert_eq!((estimate.price, estimate.price_error), (25.0, 25.0));
//! assert_eq!(spots, [150.0, 0.0]);
//!
//! let refusal = qrh::vanilla(&model, &schedule, &call, 2, &[0.5], &mut spots).unwrap_err();
//! assert_eq!(refusal, Refusal::DrawCount);
//! assert_eq!(refusal.to_string(), "there are not exactly as many draws as needed (refusal 20)");
//! # Ok::<(), Box<dyn std::error::Error>>(())
//! ```

#![warn(missing_docs)]

mod decimal;
mod refusal;

pub use decimal::{Decimal, ParseDecimalError};
use qrh_sys::{FACTORS, SEGMENTS};
pub use refusal::{KernelTable, Quantity, Refusal, Reported};

/// The kernel tables of n weights and n discounts, the parameters and the n initial factors.
///
/// variance = a × (z - b)² + c, where z is the sum of weight × factor. Nothing is checked before a
/// call: a call asks what concerns it, and refuses.
#[derive(Debug, Clone, PartialEq)]
pub struct Model {
    /// What each factor counts in z: 1 to 10 doubles from 2^-90 to 2^90.
    pub weights: Vec<f64>,
    /// How fast each factor falls back, per year: as many, in the same range.
    pub discounts: Vec<f64>,
    /// At least zero.
    pub a: Decimal,
    /// Any number.
    pub b: Decimal,
    /// Above zero: the least variance.
    pub c: Decimal,
    /// Above zero.
    pub lambda: Decimal,
    /// Above zero.
    pub eta: Decimal,
    /// Above zero.
    pub spot: Decimal,
    /// The initial factors, as many as weights.
    pub factors: Vec<Decimal>,
}

impl Model {
    fn edge(&self) -> qrh_sys::Model {
        let qrh_sys::Factors { count, factors } = given(&self.factors);
        qrh_sys::Model {
            a: self.a.edge(),
            b: self.b.edge(),
            c: self.c.edge(),
            lambda: self.lambda.edge(),
            eta: self.eta.edge(),
            spot: self.spot.edge(),
            factor_count: count,
            factors,
        }
    }
}

/// The number of factors, and the first ten. More are refused before they are read.
fn given(factors: &[Decimal]) -> qrh_sys::Factors {
    let mut ten = [qrh_sys::Decimal::default(); FACTORS];
    for (place, factor) in ten.iter_mut().zip(factors) {
        *place = factor.edge();
    }
    qrh_sys::Factors {
        count: factors.len(),
        factors: ten,
    }
}

/// `steps` steps of `dt` years each.
#[derive(Debug, Clone, Copy, PartialEq, Eq)]
pub struct Segment {
    /// Above zero.
    pub dt: Decimal,
    /// Above zero.
    pub steps: u32,
}

/// Segments, one after another: 1 to 64, of at most 4,096 steps in all.
#[derive(Debug, Clone, PartialEq, Eq, Default)]
pub struct Schedule {
    /// The segments in order.
    pub segments: Vec<Segment>,
}

impl Schedule {
    /// The steps of all segments.
    #[must_use]
    pub fn steps(&self) -> u64 {
        self.segments
            .iter()
            .map(|segment| u64::from(segment.steps))
            .sum()
    }

    /// The number of segments, and the first 64. More are refused before they are read.
    fn edge(&self) -> qrh_sys::Schedule {
        let mut segments = [qrh_sys::Segment::default(); SEGMENTS];
        for (place, segment) in segments.iter_mut().zip(&self.segments) {
            *place = qrh_sys::Segment {
                dt: segment.dt.edge(),
                steps: segment.steps,
            };
        }
        qrh_sys::Schedule {
            count: self.segments.len(),
            segments,
        }
    }
}

impl FromIterator<(Decimal, u32)> for Schedule {
    fn from_iter<I: IntoIterator<Item = (Decimal, u32)>>(segments: I) -> Self {
        let segments = segments
            .into_iter()
            .map(|(dt, steps)| Segment { dt, steps })
            .collect();
        Self { segments }
    }
}

impl<const N: usize> From<[(Decimal, u32); N]> for Schedule {
    fn from(segments: [(Decimal, u32); N]) -> Self {
        segments.into_iter().collect()
    }
}

/// Call or put.
#[derive(Debug, Clone, Copy, PartialEq, Eq, Hash)]
pub enum Style {
    /// Pays what is above the strike.
    Call,
    /// Pays what is below the strike.
    Put,
}

/// A call or a put, with its strike.
#[derive(Debug, Clone, Copy, PartialEq, Eq, Hash)]
pub struct Vanilla {
    /// Call or put.
    pub style: Style,
    /// At least zero.
    pub strike: Decimal,
}

impl Vanilla {
    /// A call.
    #[must_use]
    pub const fn call(strike: Decimal) -> Self {
        Self {
            style: Style::Call,
            strike,
        }
    }

    /// A put.
    #[must_use]
    pub const fn put(strike: Decimal) -> Self {
        Self {
            style: Style::Put,
            strike,
        }
    }
}

/// A put on the spot that vanishes at a barrier: it pays nothing on a path whose lowest spot, the
/// start included, is at or below the barrier.
#[derive(Debug, Clone, Copy, PartialEq, Eq, Hash)]
pub struct DownAndOut {
    /// At least zero.
    pub strike: Decimal,
    /// Above zero. At or above the spot it makes the put worth nothing.
    pub barrier: Decimal,
}

/// What is paid on the VIX.
#[derive(Debug, Clone, Copy, PartialEq, Eq, Hash)]
pub enum VixPayoff {
    /// The index itself.
    Future,
    /// A call or a put on the index.
    Vanilla(Vanilla),
}

impl VixPayoff {
    fn edge(&self) -> qrh_sys::VixPayoff {
        match *self {
            Self::Future => qrh_sys::VixPayoff {
                future: true,
                ..Default::default()
            },
            Self::Vanilla(Vanilla { style, strike }) => qrh_sys::VixPayoff {
                future: false,
                put: style == Style::Put,
                strike: strike.edge(),
            },
        }
    }
}

/// The tables that a trace writes: N + 1 doubles each, and (N + 1) × n factors, point by point.
/// Point 0 is the start.
#[derive(Debug)]
pub struct Tables<'a> {
    /// The spot at each point.
    pub spots: &'a mut [f64],
    /// The variance at each point.
    pub variances: &'a mut [f64],
    /// z at each point.
    pub z: &'a mut [f64],
    /// The n factors of each point.
    pub factors: &'a mut [f64],
}

/// A traced path, in tables of its own.
#[derive(Debug, Clone, PartialEq, Default)]
pub struct Path {
    /// The spot at each point.
    pub spots: Vec<f64>,
    /// The variance at each point.
    pub variances: Vec<f64>,
    /// z at each point.
    pub z: Vec<f64>,
    /// The n factors of each point.
    pub factors: Vec<f64>,
}

impl Path {
    /// Traces one path from N draws.
    ///
    /// # Errors
    ///
    /// As [`trace`].
    pub fn trace(model: &Model, schedule: &Schedule, draws: &[f64]) -> Result<Self, Refusal> {
        // Where the draws are not N, or N is above 4,096, the call is refused before it looks at
        // the tables.
        let points = draws.len().min(4096) + 1;
        let table = vec![0.0; points];
        let mut path = Self {
            spots: table.clone(),
            variances: table.clone(),
            z: table,
            factors: vec![0.0; points * model.weights.len().min(FACTORS)],
        };
        trace(model, schedule, draws, path.tables())?;
        Ok(path)
    }

    fn tables(&mut self) -> Tables<'_> {
        Tables {
            spots: &mut self.spots,
            variances: &mut self.variances,
            z: &mut self.z,
            factors: &mut self.factors,
        }
    }
}

/// The answer of a batch on the spot.
#[derive(Debug, Clone, Copy, PartialEq)]
pub struct Estimate {
    /// The mean payoff.
    pub price: f64,
    /// Its standard error.
    pub price_error: f64,
    /// The mean spot at the end of the last segment.
    pub spot_mean: f64,
    /// Its standard error.
    pub spot_error: f64,
    /// The paths run.
    pub paths: u64,
    /// The paths whose spot was at or below zero after some step.
    pub non_positive: u64,
    /// The steps taken.
    pub steps: u64,
}

impl Estimate {
    fn of(answer: qrh_sys::Estimate) -> Result<Self, Refusal> {
        answered(answer.number, answer.place, answer.steps)?;
        Ok(Self {
            price: answer.price,
            price_error: answer.price_error,
            spot_mean: answer.spot_mean,
            spot_error: answer.spot_error,
            paths: answer.paths,
            non_positive: answer.non_positive,
            steps: answer.steps,
        })
    }
}

/// The VIX at given factors.
#[derive(Debug, Clone, Copy, PartialEq)]
pub struct Vix {
    /// VIX squared.
    pub squared: f64,
    /// Its root, the index in points.
    pub index: f64,
}

/// The answer of a VIX batch.
#[derive(Debug, Clone, Copy, PartialEq)]
pub struct VixEstimate {
    /// The mean payoff.
    pub payoff: f64,
    /// Its standard error.
    pub payoff_error: f64,
    /// The mean index at the end of the last segment.
    pub index: f64,
    /// Its standard error.
    pub index_error: f64,
    /// The paths run.
    pub paths: u64,
    /// The steps taken.
    pub steps: u64,
}

#[inline]
fn answered(number: u32, place: [u64; 4], steps: u64) -> Result<(), Refusal> {
    match number {
        0 => Ok(()),
        number => Err(Refusal::new(number, place, steps)),
    }
}

/// The double that is nearest to a Decimal, ties to even; zero of either sign is +0.0.
///
/// # Errors
///
/// [`Refusal::Scale`].
#[inline]
pub fn convert(d: Decimal) -> Result<f64, Refusal> {
    // SAFETY: the declaration is the header's.
    let answer = unsafe { qrh_sys::qrh_convert(d.edge()) };
    answered(answer.number, answer.place, 0)?;
    Ok(answer.value)
}

/// The double that is nearest to the exact root; a NaN of a NaN and of what is below zero.
#[inline]
#[must_use]
pub fn sqrt(x: f64) -> f64 {
    // SAFETY: the declaration is the header's.
    unsafe { qrh_sys::qrh_sqrt(x) }
}

/// Traces one path from N draws into lent tables, and answers the steps taken.
///
/// # Errors
///
/// 2 to 10, 1, 11 to 14, 20, 21 and 22. Nothing is written before 22; at 22 the points before the
/// failing step are.
pub fn trace(
    model: &Model,
    schedule: &Schedule,
    draws: &[f64],
    tables: Tables<'_>,
) -> Result<u64, Refusal> {
    let Tables {
        spots,
        variances,
        z,
        factors,
    } = tables;
    // SAFETY: each pointer is followed by the length of its slice, and no slice that is written
    // overlaps another.
    let answer = unsafe {
        qrh_sys::qrh_trace(
            model.weights.as_ptr(),
            model.weights.len(),
            model.discounts.as_ptr(),
            model.discounts.len(),
            model.edge(),
            schedule.edge(),
            draws.as_ptr(),
            draws.len(),
            spots.as_mut_ptr(),
            spots.len(),
            variances.as_mut_ptr(),
            variances.len(),
            z.as_mut_ptr(),
            z.len(),
            factors.as_mut_ptr(),
            factors.len(),
        )
    };
    answered(answer.number, answer.place, answer.steps)?;
    Ok(answer.steps)
}

/// What [`vanilla`] and [`mirrored`] share.
fn batch(
    mirrored: bool,
    model: &Model,
    schedule: &Schedule,
    option: &Vanilla,
    paths: usize,
    draws: &[f64],
    observations: &mut [f64],
) -> Result<Estimate, Refusal> {
    let call = if mirrored {
        qrh_sys::qrh_mirrored
    } else {
        qrh_sys::qrh_vanilla
    };
    // SAFETY: each pointer is followed by the length of its slice, and no slice that is written
    // overlaps another.
    let answer = unsafe {
        call(
            model.weights.as_ptr(),
            model.weights.len(),
            model.discounts.as_ptr(),
            model.discounts.len(),
            model.edge(),
            schedule.edge(),
            option.style == Style::Put,
            option.strike.edge(),
            paths,
            draws.as_ptr(),
            draws.len(),
            observations.as_mut_ptr(),
            observations.len(),
        )
    };
    Estimate::of(answer)
}

/// Prices a call or a put on the spot, from `paths` × N draws, path by path. The spot of each path
/// at the end of each segment is written to `observations`: a row a path, a column a segment.
///
/// # Errors
///
/// 2 to 10, 1, 11 to 14, 18 to 21, 22 and 25. Nothing is written before 22; at 22 the observations
/// of segments that ended before the failing step are, at 25 all.
pub fn vanilla(
    model: &Model,
    schedule: &Schedule,
    option: &Vanilla,
    paths: usize,
    draws: &[f64],
    observations: &mut [f64],
) -> Result<Estimate, Refusal> {
    batch(false, model, schedule, option, paths, draws, observations)
}

/// Prices as [`vanilla`] does over mirrored paths: every second path takes the draws of the path
/// before it, negated, so `paths` is even and there are `paths` / 2 × N draws. Such a pair is one
/// sample: means and errors are those of the averages (first + second) / 2 of payoff and of spot.
/// Paths, non-positive paths and observations are of single paths.
///
/// # Errors
///
/// As [`vanilla`], and 28 after 19.
///
/// # Example
///
/// Two pairs of one step, with the spots 150 and 50, 125 and 75: they pay 25 and 12.5 in the mean.
///
/// ```
/// use qrh::{Decimal, Model, Schedule, Vanilla};
///
/// # let model = Model {
/// #     weights: vec![1.0],
/// #     discounts: vec![4.0],
/// #     a: Decimal::ONE,
/// #     b: Decimal::ZERO,
/// #     c: Decimal::from(4),
/// #     lambda: Decimal::ONE,
/// #     eta: Decimal::ONE,
/// #     spot: Decimal::from(100),
/// #     factors: vec![Decimal::ZERO],
/// # };
/// let schedule = Schedule::from([("0.25".parse()?, 1)]);
/// let call = Vanilla::call(Decimal::from(100));
/// let estimate = qrh::mirrored(&model, &schedule, &call, 4, &[0.5, 0.25], &mut [0.0; 4])?;
/// assert_eq!((estimate.price, estimate.price_error), (18.75, 6.25));
/// assert_eq!((estimate.spot_mean, estimate.spot_error), (100.0, 0.0));
/// # Ok::<(), Box<dyn std::error::Error>>(())
/// ```
pub fn mirrored(
    model: &Model,
    schedule: &Schedule,
    option: &Vanilla,
    paths: usize,
    draws: &[f64],
    observations: &mut [f64],
) -> Result<Estimate, Refusal> {
    batch(true, model, schedule, option, paths, draws, observations)
}

/// What [`down_and_out`] and [`mirrored_down_and_out`] share.
fn barrier_batch(
    mirrored: bool,
    model: &Model,
    schedule: &Schedule,
    option: &DownAndOut,
    paths: usize,
    draws: &[f64],
    observations: &mut [f64],
) -> Result<Estimate, Refusal> {
    let call = if mirrored {
        qrh_sys::qrh_mirrored_down_and_out
    } else {
        qrh_sys::qrh_down_and_out
    };
    // SAFETY: each pointer is followed by the length of its slice, and no slice that is written
    // overlaps another.
    let answer = unsafe {
        call(
            model.weights.as_ptr(),
            model.weights.len(),
            model.discounts.as_ptr(),
            model.discounts.len(),
            model.edge(),
            schedule.edge(),
            option.strike.edge(),
            option.barrier.edge(),
            paths,
            draws.as_ptr(),
            draws.len(),
            observations.as_mut_ptr(),
            observations.len(),
        )
    };
    Estimate::of(answer)
}

/// Prices a down-and-out put on the spot, from `paths` × N draws, path by path. The observations
/// are those of [`vanilla`].
///
/// # Errors
///
/// 2 to 10, 1, 11 to 14, 18, 27, 19 to 21, 22 and 25. The observations are written as in
/// [`vanilla`].
///
/// # Example
///
/// Two paths of one step, with the spots 100, 150 and 100, 0: the second meets the barrier.
///
/// ```
/// use qrh::{Decimal, DownAndOut, Model, Schedule};
///
/// # let model = Model {
/// #     weights: vec![1.0],
/// #     discounts: vec![4.0],
/// #     a: Decimal::ONE,
/// #     b: Decimal::ZERO,
/// #     c: Decimal::from(4),
/// #     lambda: Decimal::ONE,
/// #     eta: Decimal::ONE,
/// #     spot: Decimal::from(100),
/// #     factors: vec![Decimal::ZERO],
/// # };
/// let schedule = Schedule::from([("0.25".parse()?, 1)]);
/// let put = DownAndOut { strike: Decimal::from(200), barrier: Decimal::from(50) };
/// let estimate = qrh::down_and_out(&model, &schedule, &put, 2, &[0.5, -1.0], &mut [0.0; 2])?;
/// assert_eq!((estimate.price, estimate.price_error), (25.0, 25.0));
/// # Ok::<(), Box<dyn std::error::Error>>(())
/// ```
pub fn down_and_out(
    model: &Model,
    schedule: &Schedule,
    option: &DownAndOut,
    paths: usize,
    draws: &[f64],
    observations: &mut [f64],
) -> Result<Estimate, Refusal> {
    barrier_batch(false, model, schedule, option, paths, draws, observations)
}

/// Prices as [`down_and_out`] does over the paths of [`mirrored`], each with its own lowest spot; a
/// pair is one sample, as there.
///
/// # Errors
///
/// As [`down_and_out`], and 28 after 19.
pub fn mirrored_down_and_out(
    model: &Model,
    schedule: &Schedule,
    option: &DownAndOut,
    paths: usize,
    draws: &[f64],
    observations: &mut [f64],
) -> Result<Estimate, Refusal> {
    barrier_batch(true, model, schedule, option, paths, draws, observations)
}

/// The doubles of workspace that [`vix`] and [`vix_batch`] need for n factors: 5 × dimension²,
/// where dimension is n + n × (n + 1) / 2 + 2.
#[must_use]
pub const fn workspace_length(n: usize) -> usize {
    let dimension = n + n * (n + 1) / 2 + 2;
    5 * dimension * dimension
}

/// The VIX over a window of years, at the given factors. What the workspace holds afterwards is
/// free.
///
/// # Errors
///
/// 2 to 10, 1, 15 to 17, then 10 and 1 of the given factors, 23 and 24.
pub fn vix(
    model: &Model,
    window: Decimal,
    factors: &[Decimal],
    workspace: &mut [f64],
) -> Result<Vix, Refusal> {
    // SAFETY: each pointer is followed by the length of its slice, and the workspace overlaps no
    // other.
    let answer = unsafe {
        qrh_sys::qrh_vix(
            model.weights.as_ptr(),
            model.weights.len(),
            model.discounts.as_ptr(),
            model.discounts.len(),
            model.edge(),
            window.edge(),
            given(factors),
            workspace.as_mut_ptr(),
            workspace.len(),
        )
    };
    answered(answer.number, answer.place, 0)?;
    Ok(Vix {
        squared: answer.squared,
        index: answer.index,
    })
}

/// Prices a future, a call or a put on the VIX, from `paths` × N draws, path by path. The VIX
/// squared of each path at the end of each segment is written to `observations`, unchecked. What
/// the workspace holds afterwards is free.
///
/// # Errors
///
/// 2 to 10, 1, 11 to 14, 15 to 17, 18 of a call or a put, 19 to 21, 22, then 23 and 24 path by
/// path, and 25. The observations are written as in [`vanilla`]; at 23 to 25 all are.
pub fn vix_batch(
    model: &Model,
    schedule: &Schedule,
    window: Decimal,
    payoff: &VixPayoff,
    paths: usize,
    draws: &[f64],
    workspace: &mut [f64],
    observations: &mut [f64],
) -> Result<VixEstimate, Refusal> {
    // SAFETY: each pointer is followed by the length of its slice, and no slice that is written
    // overlaps another.
    let answer = unsafe {
        qrh_sys::qrh_vix_batch(
            model.weights.as_ptr(),
            model.weights.len(),
            model.discounts.as_ptr(),
            model.discounts.len(),
            model.edge(),
            schedule.edge(),
            window.edge(),
            payoff.edge(),
            paths,
            draws.as_ptr(),
            draws.len(),
            workspace.as_mut_ptr(),
            workspace.len(),
            observations.as_mut_ptr(),
            observations.len(),
        )
    };
    answered(answer.number, answer.place, answer.steps)?;
    Ok(VixEstimate {
        payoff: answer.payoff,
        payoff_error: answer.payoff_error,
        index: answer.index,
        index_error: answer.index_error,
        paths: answer.paths,
        steps: answer.steps,
    })
}

/// The exponential of a square matrix, row by row, into `output`. Answers how often the scaled
/// matrix was squared. The workspace is 5 × dimension² doubles; what it holds afterwards is free.
///
/// # Errors
///
/// 26, 16 and 17. The output is written where the call is answered.
pub fn exponential(
    dimension: usize,
    input: &[f64],
    output: &mut [f64],
    workspace: &mut [f64],
) -> Result<u64, Refusal> {
    // SAFETY: each pointer is followed by the length of its slice, and no slice that is written
    // overlaps another.
    let answer = unsafe {
        qrh_sys::qrh_exponential(
            dimension,
            input.as_ptr(),
            input.len(),
            output.as_mut_ptr(),
            output.len(),
            workspace.as_mut_ptr(),
            workspace.len(),
        )
    };
    answered(answer.number, answer.place, 0)?;
    Ok(answer.squarings)
}
