//! The inputs that both sides are given.

use crate::optionstratlib::quadratic_rough_heston::{
    QuadraticRoughHestonKernel, QuadraticRoughHestonParams, Schedule as RustSchedule,
};
use crate::optionstratlib::stand_in::{Decimal as RustDecimal, Positive};
use qrh::{Decimal, Model, Schedule};

/// Uniform words, by xorshift64*.
pub struct Draws(u64);

impl Draws {
    pub fn new(seed: u64) -> Self {
        Self(seed.wrapping_mul(0x9E37_79B9_7F4A_7C15) | 1)
    }

    fn word(&mut self) -> u64 {
        self.0 ^= self.0 >> 12;
        self.0 ^= self.0 << 25;
        self.0 ^= self.0 >> 27;
        self.0.wrapping_mul(0x2545_F491_4F6C_DD1D)
    }

    pub fn within(&mut self, (least, most): (u64, u64)) -> u64 {
        least + self.word() % (most - least + 1)
    }

    /// Uniform from 0 to 1.
    pub fn unit(&mut self) -> f64 {
        (self.word() >> 11) as f64 * 2.0_f64.powi(-53)
    }

    /// Normal, as the sum of twelve uniform ones.
    fn normal(&mut self) -> f64 {
        (0..12).map(|_| self.unit()).sum::<f64>() - 6.0
    }

    pub fn normals(&mut self, count: usize) -> Vec<f64> {
        (0..count).map(|_| self.normal()).collect()
    }

    /// A coefficient of a size within these, in bits.
    pub fn coefficient(&mut self, sizes: (u64, u64)) -> u128 {
        let bits = self.within(sizes);
        let word = (u128::from(self.word()) << 64) | u128::from(self.word());
        (word & ((1 << (bits - 1)) - 1)) | (1 << (bits - 1))
    }
}

pub fn dec(text: &str) -> Decimal {
    text.parse().expect("a decimal number")
}

pub fn to_rust(d: Decimal) -> RustDecimal {
    RustDecimal::new(d.is_negative(), d.coefficient(), d.scale())
}

pub fn to_positive(d: Decimal) -> Positive {
    Positive::new_decimal(to_rust(d)).expect("not negative")
}

/// The kernels of alpha = 0.6: one factor, five of ratio 5, ten of ratio 3.92.
fn kernel(n: usize) -> (Vec<f64>, Vec<f64>) {
    match n {
        1 => (vec![0.4956836642457065], vec![1.204470571845352]),
        5 => (
            vec![
                0.1367818908523166,
                0.2603853852660179,
                0.4956836642457065,
                0.9436101597984582,
                1.796307197312654,
            ],
            vec![
                0.04817882287381407,
                0.2408941143690704,
                1.204470571845352,
                6.022352859226759,
                30.111764296133785,
            ],
        ),
        _ => (
            vec![
                0.0358105680272906,
                0.061847996637980525,
                0.10681692301603687,
                0.1844822090099393,
                0.31861698015844653,
                0.5502795125345583,
                0.9503810555378641,
                1.6413915658336293,
                2.8348274165303318,
                4.895995963906752,
            ],
            vec![
                0.00244965218854925,
                0.00960263657911306,
                0.037642335390123204,
                0.14755795472928293,
                0.5784271825387889,
                2.2674345555520525,
                8.888343457764044,
                34.84230635443505,
                136.58184090938536,
                535.4008163647907,
            ],
        ),
    }
}

/// The parameters of examples/sample.h, with n factors.
pub fn model(n: usize) -> Model {
    let (weights, discounts) = kernel(n);
    Model {
        weights,
        discounts,
        a: dec("0.384"),
        b: dec("0.22"),
        c: dec("0.0025"),
        lambda: dec("1.2"),
        eta: dec("1"),
        spot: dec("100"),
        factors: vec![dec("-0.01"); n],
    }
}

/// 30 days of 365.
pub fn window() -> Decimal {
    dec("0.0821917808219178082191780822")
}

pub fn to_params(model: &Model) -> QuadraticRoughHestonParams {
    QuadraticRoughHestonParams::try_new(
        to_rust(model.a),
        to_rust(model.b),
        to_rust(model.c),
        to_rust(model.lambda),
        to_rust(model.eta),
        QuadraticRoughHestonKernel::from_tables(&model.weights, &model.discounts),
        model
            .factors
            .iter()
            .map(|factor| to_rust(*factor))
            .collect(),
        to_positive(model.spot),
    )
    .expect("sensible parameters")
}

pub fn to_schedule(schedule: &Schedule) -> RustSchedule {
    let segments: Vec<_> = schedule
        .segments
        .iter()
        .map(|segment| (to_rust(segment.dt), segment.steps as usize))
        .collect();
    RustSchedule::from_segments(&segments).expect("a sensible schedule")
}
