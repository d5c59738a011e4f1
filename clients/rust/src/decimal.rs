use std::error::Error;
use std::fmt;
use std::hash::{Hash, Hasher};
use std::str::FromStr;

/// A decimal number: a sign, a coefficient of 96 bits and a scale of 0 to 255. Its value is
/// coefficient / 10^scale.
///
/// A scale above 28 is a Decimal too, but every call refuses it, unless the coefficient is zero.
///
/// ```
/// use qrh::Decimal;
///
/// let spread: Decimal = "-0.25".parse()?;
/// assert_eq!(spread, Decimal::new(-25, 2));
/// assert_eq!(spread, "-0.250".parse()?);
/// assert_eq!(spread.to_string(), "-0.25");
/// # Ok::<(), qrh::ParseDecimalError>(())
/// ```
#[derive(Clone, Copy, Default)]
pub struct Decimal(qrh_sys::Decimal);

impl Decimal {
    /// Zero.
    pub const ZERO: Self = Self::new(0, 0);

    /// One.
    pub const ONE: Self = Self::new(1, 0);

    /// `digits` / 10^`scale`: `Decimal::new(-25, 2)` is -0.25.
    #[must_use]
    pub const fn new(digits: i64, scale: u8) -> Self {
        Self::of(digits < 0, 0, digits.unsigned_abs(), scale)
    }

    /// A Decimal from its parts, or `None` where the coefficient has more than 96 bits.
    #[must_use]
    pub const fn from_parts(negative: bool, coefficient: u128, scale: u8) -> Option<Self> {
        if coefficient >> 96 != 0 {
            return None;
        }
        Some(Self::of(
            negative,
            (coefficient >> 64) as u32,
            coefficient as u64,
            scale,
        ))
    }

    const fn of(negative: bool, high: u32, low: u64, scale: u8) -> Self {
        Self(qrh_sys::Decimal {
            low,
            high,
            scale,
            negative,
        })
    }

    /// As it crosses the edge.
    #[inline]
    pub(crate) const fn edge(&self) -> qrh_sys::Decimal {
        self.0
    }

    /// The digits, without sign and point.
    #[must_use]
    pub const fn coefficient(&self) -> u128 {
        ((self.0.high as u128) << 64) | self.0.low as u128
    }

    /// The number of decimal places.
    #[must_use]
    pub const fn scale(&self) -> u8 {
        self.0.scale
    }

    /// Whether the sign is minus. Zero has a sign too, which plays no part.
    #[must_use]
    pub const fn is_negative(&self) -> bool {
        self.0.negative
    }

    /// The sign, coefficient and scale without zeros at the end, so that equal values have equal
    /// parts.
    fn least(&self) -> (bool, u128, u8) {
        let (mut coefficient, mut scale) = (self.coefficient(), self.scale());
        if coefficient == 0 {
            return (false, 0, 0);
        }
        while scale > 0 && coefficient % 10 == 0 {
            coefficient /= 10;
            scale -= 1;
        }
        (self.is_negative(), coefficient, scale)
    }
}

/// By value: 0.5 is 0.50, and a negative zero is zero.
impl PartialEq for Decimal {
    fn eq(&self, other: &Self) -> bool {
        self.least() == other.least()
    }
}

impl Eq for Decimal {}

impl Hash for Decimal {
    fn hash<H: Hasher>(&self, state: &mut H) {
        self.least().hash(state);
    }
}

impl From<i32> for Decimal {
    fn from(value: i32) -> Self {
        Self::new(i64::from(value), 0)
    }
}

impl From<i64> for Decimal {
    fn from(value: i64) -> Self {
        Self::new(value, 0)
    }
}

impl fmt::Display for Decimal {
    fn fmt(&self, f: &mut fmt::Formatter<'_>) -> fmt::Result {
        let scale = usize::from(self.scale());
        let digits = format!("{:0>width$}", self.coefficient(), width = scale + 1);
        let (whole, places) = digits.split_at(digits.len() - scale);
        let point = if scale == 0 { "" } else { "." };
        f.pad_integral(!self.is_negative(), "", &format!("{whole}{point}{places}"))
    }
}

impl fmt::Debug for Decimal {
    fn fmt(&self, f: &mut fmt::Formatter<'_>) -> fmt::Result {
        write!(f, "Decimal({self})")
    }
}

/// Why a text is no [`Decimal`].
#[derive(Debug, Clone, Copy, PartialEq, Eq)]
#[non_exhaustive]
pub enum ParseDecimalError {
    /// It is not an optional sign, digits, and an optional point among them.
    NotANumber,
    /// Its digits have more than 96 bits.
    TooManyDigits,
    /// It has more than 255 decimal places.
    TooManyPlaces,
}

impl fmt::Display for ParseDecimalError {
    fn fmt(&self, f: &mut fmt::Formatter<'_>) -> fmt::Result {
        f.write_str(match self {
            Self::NotANumber => "not a decimal number such as -0.25",
            Self::TooManyDigits => "a decimal number of more than 96 bits",
            Self::TooManyPlaces => "a decimal number of more than 255 decimal places",
        })
    }
}

impl Error for ParseDecimalError {}

impl FromStr for Decimal {
    type Err = ParseDecimalError;

    fn from_str(text: &str) -> Result<Self, ParseDecimalError> {
        let negative = text.starts_with('-');
        let digits = text.strip_prefix(['-', '+']).unwrap_or(text);
        let (whole, places) = digits.split_once('.').unwrap_or((digits, ""));
        let all = || whole.bytes().chain(places.bytes());
        if all().next().is_none() || !all().all(|byte| byte.is_ascii_digit()) {
            return Err(ParseDecimalError::NotANumber);
        }
        let scale = u8::try_from(places.len()).map_err(|_| ParseDecimalError::TooManyPlaces)?;
        let coefficient = all().try_fold(0_u128, |so_far, byte| {
            so_far
                .checked_mul(10)?
                .checked_add(u128::from(byte - b'0'))
                .filter(|coefficient| coefficient >> 96 == 0)
        });
        coefficient
            .and_then(|coefficient| Self::from_parts(negative, coefficient, scale))
            .ok_or(ParseDecimalError::TooManyDigits)
    }
}

#[cfg(test)]
mod tests {
    use super::*;

    #[test]
    fn texts() {
        for text in [
            "0",
            "-0",
            "1",
            "-0.25",
            "0.001",
            "79228162514264337593543950335",
            "0.0821917808219178082191780822",
        ] {
            assert_eq!(
                text.parse::<Decimal>().map(|d| d.to_string()),
                Ok(text.to_string())
            );
        }
        let parsed: Decimal = "+.50".parse().expect("a number");
        assert_eq!(
            (parsed.coefficient(), parsed.scale(), parsed.is_negative()),
            (50, 2, false)
        );
        assert_eq!("7.".parse(), Ok(Decimal::from(7)));
        assert_eq!(format!("{:>8}", Decimal::new(-5, 1)), "    -0.5");
    }

    #[test]
    fn texts_of_no_decimal() {
        for text in [
            "", "-", ".", "--1", "1e5", "1_000", " 1", "0x10", "1.2.3", "\u{661}",
        ] {
            assert_eq!(
                text.parse::<Decimal>(),
                Err(ParseDecimalError::NotANumber),
                "{text}"
            );
        }
        let above = "79228162514264337593543950336";
        assert_eq!(
            above.parse::<Decimal>(),
            Err(ParseDecimalError::TooManyDigits)
        );
        let long = format!("0.{}", "0".repeat(256));
        assert_eq!(
            long.parse::<Decimal>(),
            Err(ParseDecimalError::TooManyPlaces)
        );
        assert_eq!(Decimal::from_parts(false, 1 << 96, 0), None);
    }

    #[test]
    fn equal_by_value() {
        assert_eq!(Decimal::new(5, 1), Decimal::new(50, 2));
        assert_eq!(Decimal::from_parts(true, 0, 255), Some(Decimal::ZERO));
        assert_ne!(Decimal::new(5, 1), Decimal::new(-5, 1));
        assert_ne!(Decimal::new(5, 1), Decimal::new(5, 2));
        assert_eq!(Decimal::new(i64::MIN, 0).coefficient(), 1 << 63);
    }
}
