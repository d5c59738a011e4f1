//! The C functions and structs of include/qrh.h, declared for Rust once: for the client, the judge
//! and the benchmark. The header says of each what it needs and what it writes. A test hands these
//! declarations to the C compiler beside the header, so that neither can change alone.
//!
//! Every function is unsafe. Its caller sees to what no call can ask: each pointer is valid for the
//! length after it, what is written overlaps nothing else that the call is given, and the
//! floating-point environment is the usual one.

#![no_std]
#![warn(missing_docs)]

#[cfg(test)]
extern crate std;

#[cfg(test)]
mod header;

use core::fmt;
#[cfg(test)]
use core::mem::offset_of;

/// The most factors of a model.
pub const FACTORS: usize = 10;

/// The most segments of a schedule.
pub const SEGMENTS: usize = 64;

macro_rules! structs {
    ($($(#[$meta:meta])* $c:literal $name:ident { $($field:ident: $type:ty,)* })*) => {
        $(
            $(#[$meta])*
            #[allow(missing_docs)] // The fields are the header's.
            #[repr(C)]
            #[derive(Clone, Copy, PartialEq)]
            pub struct $name {
                $(pub $field: $type,)*
            }

            #[cfg(test)]
            impl header::C for $name {
                fn declare(declarator: &str) -> std::string::String {
                    std::format!("{} {declarator}", $c)
                }
            }
        )*

        #[cfg(test)]
        fn struct_checks() -> std::vec::Vec<std::string::String> {
            std::vec![$({
                let fields = [$(
                    header::field::<$type>(stringify!($field), offset_of!($name, $field)),
                )*];
                header::check::<$name>($c, &fields)
            }),*]
        }
    };
}

structs! {
    /// (`high` × 2^64 + `low`) / 10^`scale`, negated where `negative` is set.
    #[derive(Debug, Default, Eq)]
    "qrh_decimal" Decimal {
        low: u64,
        high: u32,
        scale: u8,
        negative: bool,
    }

    /// The parameters. The first `factor_count` of the initial factors are given.
    #[derive(Debug, Default, Eq)]
    "qrh_model" Model {
        a: Decimal,
        b: Decimal,
        c: Decimal,
        lambda: Decimal,
        eta: Decimal,
        spot: Decimal,
        factor_count: usize,
        factors: [Decimal; FACTORS],
    }

    /// `steps` steps of `dt` years each.
    #[derive(Debug, Default, Eq)]
    "qrh_segment" Segment {
        dt: Decimal,
        steps: u32,
    }

    /// The first `count` segments, one after another.
    #[derive(Eq)]
    "qrh_schedule" Schedule {
        count: usize,
        segments: [Segment; SEGMENTS],
    }

    /// The first `count` factors, at which the index is read.
    #[derive(Debug, Default, Eq)]
    "qrh_factors" Factors {
        count: usize,
        factors: [Decimal; FACTORS],
    }

    /// A future on the index; or a call or a put on it, at its strike.
    #[derive(Debug, Default, Eq)]
    "qrh_vix_payoff" VixPayoff {
        future: bool,
        put: bool,
        strike: Decimal,
    }

    /// Of `qrh_convert`. Every answer begins with its number, 0 where the call is answered, and its
    /// place, 0 where there is none.
    #[derive(Debug, Default)]
    "qrh_conversion" Conversion {
        number: u32,
        place: [u64; 4],
        value: f64,
    }

    /// Of `qrh_trace`.
    #[derive(Debug, Default, Eq)]
    "qrh_tracing" Tracing {
        number: u32,
        place: [u64; 4],
        steps: u64,
    }

    /// Of the batches on the spot: `qrh_vanilla`, `qrh_mirrored` and the two down-and-out calls.
    #[derive(Debug, Default)]
    "qrh_estimate" Estimate {
        number: u32,
        place: [u64; 4],
        price: f64,
        price_error: f64,
        spot_mean: f64,
        spot_error: f64,
        paths: u64,
        non_positive: u64,
        steps: u64,
    }

    /// Of `qrh_vix`.
    #[derive(Debug, Default)]
    "qrh_vix_value" VixValue {
        number: u32,
        place: [u64; 4],
        squared: f64,
        index: f64,
    }

    /// Of `qrh_vix_batch`.
    #[derive(Debug, Default)]
    "qrh_vix_estimate" VixEstimate {
        number: u32,
        place: [u64; 4],
        payoff: f64,
        payoff_error: f64,
        index: f64,
        index_error: f64,
        paths: u64,
        steps: u64,
    }

    /// Of `qrh_exponential`.
    #[derive(Debug, Default, Eq)]
    "qrh_exponentiation" Exponentiation {
        number: u32,
        place: [u64; 4],
        squarings: u64,
    }
}

impl Default for Schedule {
    fn default() -> Self {
        Self {
            count: 0,
            segments: [Segment::default(); SEGMENTS],
        }
    }
}

/// Without what lies past the count, which no call reads.
impl fmt::Debug for Schedule {
    fn fmt(&self, f: &mut fmt::Formatter<'_>) -> fmt::Result {
        let read = self.segments.get(..self.count).unwrap_or(&[]);
        f.debug_struct("Schedule")
            .field("count", &self.count)
            .field("segments", &read)
            .finish()
    }
}

macro_rules! calls {
    ($($(#[$meta:meta])* fn $name:ident($($given:ident: $type:ty),* $(,)?) -> $answer:ty;)*) => {
        unsafe extern "C" {
            $($(#[$meta])* pub fn $name($($given: $type),*) -> $answer;)*
        }

        #[cfg(test)]
        fn call_declarations() -> std::vec::Vec<std::string::String> {
            std::vec![$({
                let given = [$(<$type as header::C>::declare(stringify!($given))),*];
                let declarator = std::format!("{}({})", stringify!($name), given.join(", "));
                <$answer as header::C>::declare(&declarator) + ";"
            }),*]
        }
    };
}

calls! {
    /// Converts a Decimal.
    fn qrh_convert(d: Decimal) -> Conversion;

    /// The square root.
    fn qrh_sqrt(x: f64) -> f64;

    /// Traces one path.
    fn qrh_trace(
        weights: *const f64,
        weights_length: usize,
        discounts: *const f64,
        discounts_length: usize,
        model: Model,
        schedule: Schedule,
        draws: *const f64,
        draws_length: usize,
        spots: *mut f64,
        spots_length: usize,
        variances: *mut f64,
        variances_length: usize,
        z: *mut f64,
        z_length: usize,
        factors: *mut f64,
        factors_length: usize,
    ) -> Tracing;

    /// Prices a vanilla batch.
    fn qrh_vanilla(
        weights: *const f64,
        weights_length: usize,
        discounts: *const f64,
        discounts_length: usize,
        model: Model,
        schedule: Schedule,
        put: bool,
        strike: Decimal,
        paths: usize,
        draws: *const f64,
        draws_length: usize,
        observations: *mut f64,
        observations_length: usize,
    ) -> Estimate;

    /// Prices a mirrored batch.
    fn qrh_mirrored(
        weights: *const f64,
        weights_length: usize,
        discounts: *const f64,
        discounts_length: usize,
        model: Model,
        schedule: Schedule,
        put: bool,
        strike: Decimal,
        paths: usize,
        draws: *const f64,
        draws_length: usize,
        observations: *mut f64,
        observations_length: usize,
    ) -> Estimate;

    /// Prices a batch of a down-and-out put.
    fn qrh_down_and_out(
        weights: *const f64,
        weights_length: usize,
        discounts: *const f64,
        discounts_length: usize,
        model: Model,
        schedule: Schedule,
        strike: Decimal,
        barrier: Decimal,
        paths: usize,
        draws: *const f64,
        draws_length: usize,
        observations: *mut f64,
        observations_length: usize,
    ) -> Estimate;

    /// Prices a mirrored batch of a down-and-out put.
    fn qrh_mirrored_down_and_out(
        weights: *const f64,
        weights_length: usize,
        discounts: *const f64,
        discounts_length: usize,
        model: Model,
        schedule: Schedule,
        strike: Decimal,
        barrier: Decimal,
        paths: usize,
        draws: *const f64,
        draws_length: usize,
        observations: *mut f64,
        observations_length: usize,
    ) -> Estimate;

    /// Evaluates the VIX.
    fn qrh_vix(
        weights: *const f64,
        weights_length: usize,
        discounts: *const f64,
        discounts_length: usize,
        model: Model,
        window: Decimal,
        given: Factors,
        workspace: *mut f64,
        workspace_length: usize,
    ) -> VixValue;

    /// Prices a VIX batch.
    fn qrh_vix_batch(
        weights: *const f64,
        weights_length: usize,
        discounts: *const f64,
        discounts_length: usize,
        model: Model,
        schedule: Schedule,
        window: Decimal,
        payoff: VixPayoff,
        paths: usize,
        draws: *const f64,
        draws_length: usize,
        workspace: *mut f64,
        workspace_length: usize,
        observations: *mut f64,
        observations_length: usize,
    ) -> VixEstimate;

    /// Exponentiates a matrix.
    fn qrh_exponential(
        dimension: usize,
        input: *const f64,
        input_length: usize,
        output: *mut f64,
        output_length: usize,
        workspace: *mut f64,
        workspace_length: usize,
    ) -> Exponentiation;
}
