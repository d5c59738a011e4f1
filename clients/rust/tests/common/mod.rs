//! The inputs of the checked figures.

use qrh::{Decimal, Model, Schedule};

/// The Decimal of a text.
pub fn dec(text: &str) -> Decimal {
    text.parse().expect("a decimal number")
}

/// n = 1, weight 1, discount 4, a = 1, b = 0, c = 4, lambda = eta = 1, spot 100, factor 0.
pub fn model() -> Model {
    Model {
        weights: vec![1.0],
        discounts: vec![4.0],
        a: Decimal::ONE,
        b: Decimal::ZERO,
        c: Decimal::from(4),
        lambda: Decimal::ONE,
        eta: Decimal::ONE,
        spot: Decimal::from(100),
        factors: vec![Decimal::ZERO],
    }
}

/// One step of a quarter.
pub fn quarter() -> Schedule {
    Schedule::from([(dec("0.25"), 1)])
}

/// A call at 100.
#[allow(dead_code)]
pub fn at_100() -> qrh::Vanilla {
    qrh::Vanilla::call(Decimal::from(100))
}
