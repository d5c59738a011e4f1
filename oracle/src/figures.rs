//! The checked figures (docs/SPECIFICATION.md, section 19) as cases, for the recorded list.

use crate::cases::{Case, Model, Terms};
use crate::edge::{self, Decimal, Factors, Schedule, Segment};
use crate::generator::decimal;

/// A whole number.
#[must_use]
pub fn whole(value: u128) -> Decimal {
    decimal(false, value, 0)
}

/// 0.25.
#[must_use]
pub fn quarter() -> Decimal {
    decimal(false, 25, 2)
}

/// n = 1, weight 1, discount 4, a = 1, b = 0, c = 4, lambda = eta = 1, spot 100, factor 0.
#[must_use]
pub fn model() -> Model {
    Model {
        weights: vec![1.0],
        discounts: vec![4.0],
        inputs: edge::Model {
            a: whole(1),
            b: whole(0),
            c: whole(4),
            lambda: whole(1),
            eta: whole(1),
            spot: whole(100),
            factor_count: 1,
            ..Default::default()
        },
    }
}

/// The schedule of the given segments.
#[must_use]
pub fn schedule(segments: &[(Decimal, u32)]) -> Schedule {
    let mut schedule = Schedule {
        count: segments.len(),
        ..Default::default()
    };
    for (segment, (dt, steps)) in schedule.segments.iter_mut().zip(segments) {
        *segment = Segment {
            dt: *dt,
            steps: *steps,
        };
    }
    schedule
}

fn trace(model: Model, schedule: Schedule, draws: &[f64]) -> Case {
    let points = draws.len() + 1;
    let n = model.weights.len();
    Case::Trace {
        model,
        schedule,
        draws: draws.to_vec(),
        tables: [points, points, points, points * n],
    }
}

/// A batch of paths of so many steps each, in one segment.
fn batch(terms: Terms, steps: usize, draws: &[f64]) -> Case {
    let paths = draws.len() / steps;
    Case::Vanilla {
        mirrored: false,
        model: model(),
        schedule: schedule(&[(quarter(), steps as u32)]),
        terms,
        paths,
        draws: draws.to_vec(),
        observations: paths,
    }
}

fn call_at(strike: u128) -> Terms {
    Terms::Vanilla {
        put: false,
        strike: whole(strike),
    }
}

fn call_at_100(draws: &[f64]) -> Case {
    batch(call_at(100), 1, draws)
}

/// A call over two paths for each list of so many draws.
fn mirrored(spot: Decimal, strike: u128, steps: usize, draws: &[f64]) -> Case {
    let paths = 2 * (draws.len() / steps);
    Case::Vanilla {
        mirrored: true,
        model: Model {
            inputs: edge::Model {
                spot,
                ..model().inputs
            },
            ..model()
        },
        schedule: schedule(&[(quarter(), steps as u32)]),
        terms: call_at(strike),
        paths,
        draws: draws.to_vec(),
        observations: paths,
    }
}

/// A put at 200 that vanishes at a barrier.
fn put_until(barrier: u128, steps: usize, draws: &[f64]) -> Case {
    let terms = Terms::DownAndOut {
        strike: whole(200),
        barrier: whole(barrier),
    };
    batch(terms, steps, draws)
}

fn exponential(dimension: usize, input: &[f64]) -> Case {
    Case::Exponential {
        dimension,
        input: input.to_vec(),
        output: input.len(),
        workspace: 5 * input.len(),
    }
}

/// Every figure whose tables fit a recorded case: all but the trace of 4,096 steps.
#[must_use]
pub fn figures() -> Vec<Case> {
    let one_step = || schedule(&[(quarter(), 1)]);
    let wide = |n: usize| {
        let mut model = model();
        model.weights = vec![1.0; n];
        model.discounts = vec![1.0; n];
        model.inputs.factor_count = n.min(10);
        model
    };
    let mut no_feedback = model();
    no_feedback.inputs.a = whole(0);
    let half = decimal(false, 5, 1);
    vec![
        // P1 to P5.
        Case::Convert(decimal(false, 1, 1)),
        Case::Convert(whole(9_007_199_254_740_993)),
        Case::Convert(whole(9_007_199_254_740_995)),
        Case::Convert(decimal(false, 90_071_992_547_409_930_000_001, 7)),
        Case::Convert(decimal(false, 0, 29)),
        Case::Convert(decimal(false, 1, 29)),
        // P6.
        Case::Sqrt(5e-324),
        // P7 and P8.
        trace(model(), one_step(), &[0.5]),
        trace(model(), one_step(), &[-1.0]),
        // P9 and P10.
        call_at_100(&[0.5, -1.0]),
        call_at_100(&[0.5, f64::INFINITY]),
        // P11.
        exponential(2, &[0.0, 1.0, 0.0, 0.0]),
        // P12.
        Case::Vix {
            model: no_feedback,
            window: quarter(),
            given: Factors {
                count: 1,
                ..Default::default()
            },
            workspace: 80,
        },
        // 10 factors pass, 11: 2.
        trace(wide(10), one_step(), &[0.5]),
        trace(wide(11), one_step(), &[0.5]),
        // 4,097 steps: 14.
        trace(model(), schedule(&[(quarter(), 4097)]), &[0.5]),
        // One path: 19.
        call_at_100(&[0.5]),
        // Norm 0.5: no squaring; norm 2^1023: 17.
        exponential(1, &[0.5]),
        exponential(1, &[2.0_f64.powi(1023)]),
        // Step 2 uses 0.25, step 3 uses 0.5.
        trace(
            model(),
            schedule(&[(quarter(), 2), (half, 3)]),
            &[0.5, -0.25, 1.0, 0.5, -0.5],
        ),
        // One path ends at 150, one at 0: both touch 100 at the start, the second alone 50 and 99.
        put_until(50, 1, &[0.5, -1.0]),
        put_until(99, 1, &[0.5, -1.0]),
        put_until(100, 1, &[0.5, -1.0]),
        // Down to 50, then up to 100.389..: 60 is touched and 49 is not.
        put_until(60, 2, &[-0.5, 1.0, -0.5, 1.0]),
        put_until(49, 2, &[-0.5, 1.0, -0.5, 1.0]),
        // A barrier of zero: 27.
        put_until(0, 1, &[0.5, -1.0]),
        // Mirrored: two pairs; one pair alone: 28; an average that overflows: 25.
        mirrored(whole(100), 100, 1, &[0.5, 0.25]),
        mirrored(whole(100), 100, 1, &[0.5]),
        mirrored(decimal(false, 1, 12), 0, 22, &[64.0; 44]),
    ]
}
