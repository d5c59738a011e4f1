/******************************************************************************
   Author: Joaquín Béjar García
   Email: jb@taunais.com
   Date: 6/11/26
******************************************************************************/

// Oracle: without the messages of `thiserror`, and without the cases that belong to what is
// left out (the kernel from alpha, calibration, implied volatility). `DecimalError` has the one
// case that `decimal_to_f64` uses.

use super::stand_in::Decimal;

/// Reasons why a quadratic rough Heston kernel, simulation or price cannot be produced.
///
/// Raised by the constructors and functions around
/// [`QuadraticRoughHestonParams`](crate::simulation::QuadraticRoughHestonParams).
#[derive(Debug)]
pub enum QuadraticRoughHestonError {
    /// The time step is not positive: the horizon is not above zero, there are no steps,
    /// or the step rounds to zero in a `Decimal`.
    NonPositiveStep {
        /// The horizon, in years.
        horizon: Decimal,
        /// The number of steps.
        steps: usize,
    },

    /// A model or run parameter is outside its domain.
    InvalidParameter {
        /// The rejected parameter.
        parameter: &'static str,
        /// The rejected value.
        value: Decimal,
        /// The condition the value breaks.
        reason: &'static str,
    },

    /// The number of factors of a state is not the number of factors of the kernel: the
    /// initial factors of the model, or the factor state the VIX is read at.
    InitialFactorCount {
        /// The factors of the kernel.
        expected: usize,
        /// The factors supplied.
        actual: usize,
    },

    /// A value of the simulated state stopped being finite. The variance is not truncated,
    /// so this is how an exploding path is reported.
    NonFinite {
        /// `spot`, `z` or `variance`.
        quantity: &'static str,
        /// The step of the grid, from 1 to its number of steps.
        step: usize,
    },

    /// The conditional moments of the variance over the VIX window are not finite: the second
    /// moments of the factors grow beyond an `f64` within the window.
    VixMomentsNotFinite {
        /// The window, in years.
        window: Decimal,
    },

    /// The VIX of a factor state has no positive finite value.
    VixNotPositive {
        /// What failed.
        reason: &'static str,
    },

    /// A buffer of the requested size cannot be allocated.
    BufferTooLarge {
        /// What the buffer holds.
        buffer: &'static str,
        /// The entries requested.
        len: usize,
    },

    /// A value does not fit a `Decimal`, or `Decimal` arithmetic failed.
    Decimal(DecimalError),
}

impl From<DecimalError> for QuadraticRoughHestonError {
    #[inline]
    fn from(error: DecimalError) -> Self {
        Self::Decimal(error)
    }
}

/// Why a `Decimal` has no `f64` value.
#[derive(Debug)]
pub enum DecimalError {
    /// A conversion failed.
    ConversionError {
        /// The value and its type.
        from_type: String,
        /// The type asked for.
        to_type: String,
        /// What failed.
        reason: String,
    },
}
