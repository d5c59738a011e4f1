/******************************************************************************
   Author: Joaquín Béjar García
   Email: jb@taunais.com
   Date: 25/12/24
******************************************************************************/
// Oracle: only `decimal_to_f64` and what it needs; the rest of the file is left out. The
// `Decimal` is the stand-in.

use super::error::DecimalError;
use super::stand_in::Decimal;

/// `5^0` to `5^28`. `10^scale = 2^scale * 5^scale`, so a `Decimal` is
/// `mantissa / 5^scale * 2^-scale`: only the division by `5^scale` rounds,
/// and `5^28 < 2^66` keeps it in `u128`.
const POWERS_OF_FIVE: [u128; 29] = [
    1,
    5,
    25,
    125,
    625,
    3125,
    15625,
    78125,
    390625,
    1953125,
    9765625,
    48828125,
    244140625,
    1220703125,
    6103515625,
    30517578125,
    152587890625,
    762939453125,
    3814697265625,
    19073486328125,
    95367431640625,
    476837158203125,
    2384185791015625,
    11920928955078125,
    59604644775390625,
    298023223876953125,
    1490116119384765625,
    7450580596923828125,
    37252902984619140625,
];

/// Bits in an `f64` significand, the implicit leading one included.
const F64_SIGNIFICAND_BITS: u32 = 53;

/// Bias of the `f64` exponent field.
const F64_EXPONENT_BIAS: i32 = 1023;

/// Bits below the `f64` exponent field.
const F64_EXPONENT_SHIFT: u32 = 52;

#[cold]
#[inline(never)]
fn decimal_to_f64_error(value: Decimal, reason: &str) -> DecimalError {
    DecimalError::ConversionError {
        from_type: format!("Decimal: {value}"),
        to_type: "f64".to_string(),
        reason: reason.to_string(),
    }
}

/// Converts a `Decimal` to the `f64` nearest to it (ties to even).
///
/// The result is the `f64` the literal written with the same digits parses
/// to: `decimal_to_f64(dec!(2.999789999999902))` is `2.999789999999902_f64`
/// bit for bit. `Decimal::to_f64` divides the mantissa by a power of ten in
/// floating point and can land a few ULPs away from it once the value has 15
/// or more decimal places (`2.999789999999903` for that input), so this
/// function does not use it (#670). Zero, of either sign, converts to `+0.0`.
///
/// The value is `mantissa / 5^scale * 2^-scale`. The mantissa, shifted to
/// the top of a `u128`, is divided by `5^scale` in integers, which leaves a
/// quotient of at least 62 bits and an exact remainder; the quotient is
/// rounded to 53 bits from its dropped bits and the remainder, and scaled by
/// an exact power of two. It does no floating-point rounding before that one
/// step and does not allocate on success.
///
/// # Parameters
///
/// * `value` - The `Decimal` value to convert
///
/// # Errors
///
/// Returns [`DecimalError::ConversionError`] if the scale exceeds the 28
/// places a `Decimal` holds or an intermediate leaves its range. Every valid
/// `Decimal` lies within `f64` range and converts, so neither happens; they
/// are reported rather than assumed.
///
/// # Example
///
/// ```rust
/// use rust_decimal_macros::dec;
/// use optionstratlib_core::model::decimal::decimal_to_f64;
///
/// let value = decimal_to_f64(dec!(0.95));
/// assert!(matches!(value, Ok(v) if v.to_bits() == 0.95_f64.to_bits()));
///
/// // 15 decimal places: the nearest `f64`, which `Decimal::to_f64` misses.
/// let value = decimal_to_f64(dec!(2.999789999999902));
/// assert!(matches!(value, Ok(v) if v.to_bits() == 2.999_789_999_999_902_f64.to_bits()));
/// ```
pub fn decimal_to_f64(value: Decimal) -> Result<f64, DecimalError> {
    let mantissa = value.mantissa().unsigned_abs();
    if mantissa == 0 {
        return Ok(0.0);
    }
    let scale = value.scale();
    let out_of_range = || decimal_to_f64_error(value, "intermediate outside its range");
    let divisor = usize::try_from(scale)
        .ok()
        .and_then(|index| POWERS_OF_FIVE.get(index))
        .copied()
        .ok_or_else(|| decimal_to_f64_error(value, "scale exceeds the 28 places of a Decimal"))?;

    // Left-aligned, the numerator is at least `2^127`, so after the division
    // by `5^28 < 2^66` the quotient is above `2^61`: at least 62 bits.
    let shift = mantissa.leading_zeros();
    let numerator = mantissa << shift;
    let quotient = numerator.checked_div(divisor).ok_or_else(out_of_range)?;
    let remainder = numerator.checked_rem(divisor).ok_or_else(out_of_range)?;

    // Keep the top 53 bits and round on the rest: above half rounds up, a
    // tie (dropped bits exactly half and nothing in the remainder) rounds to
    // an even significand.
    let excess = u128::BITS
        .checked_sub(quotient.leading_zeros())
        .and_then(|bits| bits.checked_sub(F64_SIGNIFICAND_BITS))
        .ok_or_else(out_of_range)?;
    let half = excess
        .checked_sub(1)
        .and_then(|bits| 1_u128.checked_shl(bits))
        .ok_or_else(out_of_range)?;
    let dropped_mask = half
        .checked_shl(1)
        .and_then(|bit| bit.checked_sub(1))
        .ok_or_else(out_of_range)?;
    let dropped = quotient & dropped_mask;
    let mut significand = quotient >> excess;
    if dropped > half || (dropped == half && (remainder != 0 || significand & 1 == 1)) {
        significand = significand.checked_add(1).ok_or_else(out_of_range)?;
    }

    // `significand <= 2^53` converts exactly and the power of two is exact,
    // so the product is the rounded quotient scaled by `2^-shift * 2^-scale`.
    let exponent = i32::try_from(excess)
        .ok()
        .zip(i32::try_from(shift).ok())
        .zip(i32::try_from(scale).ok())
        .and_then(|((excess, shift), scale)| {
            F64_EXPONENT_BIAS
                .checked_add(excess)?
                .checked_sub(shift)?
                .checked_sub(scale)
        })
        .and_then(|biased| u64::try_from(biased).ok())
        .ok_or_else(out_of_range)?;
    let power_of_two = f64::from_bits(exponent << F64_EXPONENT_SHIFT);
    let magnitude = significand as f64 * power_of_two;
    Ok(if value.is_sign_negative() {
        -magnitude
    } else {
        magnitude
    })
}
