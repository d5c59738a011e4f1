//! Small stand-ins for what the copied files take from other crates: `Decimal` of rust_decimal,
//! `Positive`, `OptionStyle`, and `ToPrimitive` of num_traits.

use std::cmp::Ordering;
use std::fmt;

/// A sign, a 96-bit coefficient and a scale; the value is coefficient / 10^scale. Unlike the
/// library's, its scale can exceed 28.
#[derive(Debug, Clone, Copy)]
pub struct Decimal {
    negative: bool,
    coefficient: u128,
    scale: u8,
}

impl Decimal {
    /// Zero.
    pub const ZERO: Self = Self {
        negative: false,
        coefficient: 0,
        scale: 0,
    };

    /// ±`coefficient` / 10^`scale`. `coefficient` is below 2^96.
    #[must_use]
    pub fn new(negative: bool, coefficient: u128, scale: u8) -> Self {
        assert!(coefficient >> 96 == 0, "a coefficient of 96 bits");
        Self {
            negative,
            coefficient,
            scale,
        }
    }

    /// The coefficient with its sign.
    #[must_use]
    pub fn mantissa(&self) -> i128 {
        let magnitude = self.coefficient as i128;
        if self.negative { -magnitude } else { magnitude }
    }

    /// The number of decimal places.
    #[must_use]
    pub fn scale(&self) -> u32 {
        u32::from(self.scale)
    }

    /// Whether the sign is minus.
    #[must_use]
    pub fn is_sign_negative(&self) -> bool {
        self.negative
    }

    /// Whether the value is zero.
    #[must_use]
    pub fn is_zero(&self) -> bool {
        self.coefficient == 0
    }

    /// The product, or `None` where it has no exact `Decimal`. Only an error's text uses it.
    #[must_use]
    pub fn checked_mul(self, other: Self) -> Option<Self> {
        let coefficient = self.coefficient.checked_mul(other.coefficient)?;
        let scale = self.scale.checked_add(other.scale)?;
        (coefficient >> 96 == 0)
            .then(|| Self::new(self.negative != other.negative, coefficient, scale))
    }

    /// The magnitude in digits, of `whole` digits before the point and `places` after it.
    fn digits(&self, whole: usize, places: usize) -> String {
        let scale = usize::from(self.scale);
        let text = format!("{:0>width$}", self.coefficient, width = scale + 1);
        let (before, after) = text.split_at(text.len() - scale);
        format!("{before:0>whole$}{after:0<places$}")
    }
}

impl From<usize> for Decimal {
    fn from(value: usize) -> Self {
        Self::new(false, value as u128, 0)
    }
}

/// By value: a negative zero is zero, and 0.5 is 0.50.
impl PartialEq for Decimal {
    fn eq(&self, other: &Self) -> bool {
        self.cmp(other) == Ordering::Equal
    }
}

impl Eq for Decimal {}

impl PartialOrd for Decimal {
    fn partial_cmp(&self, other: &Self) -> Option<Ordering> {
        Some(self.cmp(other))
    }
}

impl Ord for Decimal {
    fn cmp(&self, other: &Self) -> Ordering {
        // 2^96 has 29 digits, and a scale is at most 255.
        let magnitudes = self.digits(30, 255).cmp(&other.digits(30, 255));
        let minus = |value: &Self| value.negative && !value.is_zero();
        match (minus(self), minus(other)) {
            (false, false) => magnitudes,
            (true, true) => magnitudes.reverse(),
            (true, false) => Ordering::Less,
            (false, true) => Ordering::Greater,
        }
    }
}

impl fmt::Display for Decimal {
    fn fmt(&self, f: &mut fmt::Formatter<'_>) -> fmt::Result {
        let sign = if self.negative { "-" } else { "" };
        write!(f, "{sign}{}e-{}", self.coefficient, self.scale)
    }
}

/// A `Decimal` that is not negative.
#[derive(Debug, Clone, Copy, PartialEq, Eq)]
pub struct Positive(Decimal);

impl Positive {
    /// `value`, or `None` where it is negative.
    #[must_use]
    pub fn new_decimal(value: Decimal) -> Option<Self> {
        (value >= Decimal::ZERO).then_some(Self(value))
    }

    /// The value.
    #[must_use]
    #[allow(clippy::wrong_self_convention)]
    pub fn to_dec(&self) -> Decimal {
        self.0
    }

    /// Whether the value is zero.
    #[must_use]
    pub fn is_zero(&self) -> bool {
        self.0.is_zero()
    }
}

/// Call or put.
#[derive(Debug, Clone, Copy, PartialEq, Eq)]
pub enum OptionStyle {
    /// The right to buy.
    Call,
    /// The right to sell.
    Put,
}

/// The one conversion of num_traits that `exponential` uses.
pub trait ToPrimitive {
    /// The value without its fraction, or `None` where an `i32` does not hold it.
    fn to_i32(&self) -> Option<i32>;
}

impl ToPrimitive for f64 {
    fn to_i32(&self) -> Option<i32> {
        let whole = self.trunc();
        (whole >= f64::from(i32::MIN) && whole <= f64::from(i32::MAX)).then_some(whole as i32)
    }
}
