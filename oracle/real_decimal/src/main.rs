//! Compares the stand-in for Decimal with rust_decimal: the copied `decimal_to_f64` is compiled
//! over the real type, and must give what the oracle gives. It also says where `Decimal::to_f64`,
//! which the library does not use, is not the nearest double.

#[allow(dead_code)]
#[path = "../../src/optionstratlib/decimal.rs"]
mod decimal;
#[allow(dead_code)]
#[path = "../../src/optionstratlib/error.rs"]
mod error;

/// The name under which the copied files look for the type.
mod stand_in {
    pub use rust_decimal::Decimal;
}

use oracle::calls;
use oracle::cases::Case;
use oracle::generator;
use rust_decimal::Decimal;
use rust_decimal::prelude::ToPrimitive;

fn real(d: oracle::edge::Decimal) -> Decimal {
    let (low, middle) = (d.low as u32, (d.low >> 32) as u32);
    Decimal::from_parts(low, middle, d.high, d.negative, u32::from(d.scale))
}

fn main() {
    let mut compared = 0_u64;
    let mut not_nearest = 0_u64;
    for index in 0..2_000_000 {
        let Case::Convert(d) = generator::case(1, 0, index, generator::WIDE) else {
            panic!("a conversion");
        };
        if d.scale > 28 {
            continue;
        }
        let value = calls::convert(d).value;
        let real = real(d);
        let zero = d.low == 0 && d.high == 0;
        assert_eq!(real.scale(), u32::from(d.scale));
        assert_eq!(real > Decimal::ZERO, !zero && !d.negative, "{d:?}");
        assert_eq!(real < Decimal::ZERO, !zero && d.negative, "{d:?}");
        assert_eq!(real.is_zero(), zero);
        let converted = decimal::decimal_to_f64(real).expect("a scale of at most 28");
        assert_eq!(converted.to_bits(), value.to_bits(), "{d:?}");
        compared += 1;
        not_nearest += u64::from(real.to_f64() != Some(value));
    }
    println!("{compared} Decimals compared, none differs");
    println!("`to_f64` is not the nearest double for {not_nearest} of them");
    for scale in 0..=28 {
        let first = (1..2_000_000_i128)
            .map(|coefficient| Decimal::from_i128_with_scale(coefficient, scale))
            .find(|d| d.to_f64() != decimal::decimal_to_f64(*d).ok());
        if let Some(d) = first {
            println!(
                "the least with {scale} places: {d}: to_f64 {:?}, nearest {:?}",
                d.to_f64(),
                decimal::decimal_to_f64(d)
            );
        }
    }
}
