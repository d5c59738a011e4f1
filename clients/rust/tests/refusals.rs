//! Every refusal once, through the safe calls.

mod common;

use common::{at_100, dec, model, quarter};
use qrh::{
    Decimal, DownAndOut, KernelTable, Model, Path, Quantity, Refusal, Reported, Schedule, Tables,
    Vanilla, VixPayoff, workspace_length,
};

/// A trace of one step from the model as changed.
fn refused(change: impl FnOnce(&mut Model)) -> Refusal {
    let mut model = model();
    change(&mut model);
    Path::trace(&model, &quarter(), &[0.5]).expect_err("a refusal")
}

#[test]
fn models() {
    let fine = Decimal::new(1, 29);
    let minus = Decimal::new(-1, 0);
    assert_eq!(refused(|model| model.eta = fine), Refusal::Scale);
    assert_eq!(refused(|model| model.weights.clear()), Refusal::WeightCount);
    assert_eq!(
        refused(|model| model.weights = vec![1.0; 11]),
        Refusal::WeightCount
    );
    assert_eq!(
        refused(|model| model.discounts.clear()),
        Refusal::DiscountCount
    );
    let range = |table| Refusal::KernelRange { table, index: 1 };
    assert_eq!(
        refused(|model| model.weights[0] = 0.0),
        range(KernelTable::Weights)
    );
    assert_eq!(
        refused(|model| model.discounts[0] = f64::NAN),
        range(KernelTable::Discounts)
    );
    assert_eq!(refused(|model| model.a = minus), Refusal::A);
    assert_eq!(refused(|model| model.c = Decimal::ZERO), Refusal::C);
    assert_eq!(refused(|model| model.lambda = minus), Refusal::Lambda);
    assert_eq!(refused(|model| model.eta = minus), Refusal::Eta);
    assert_eq!(refused(|model| model.spot = Decimal::ZERO), Refusal::Spot);
    assert_eq!(refused(|model| model.factors.clear()), Refusal::FactorCount);
    assert_eq!(
        refused(|model| model.factors = vec![fine; 12]),
        Refusal::FactorCount
    );
}

#[test]
fn schedules() {
    let refused = |segments: Vec<(Decimal, u32)>| {
        Path::trace(&model(), &segments.into_iter().collect(), &[0.5]).expect_err("a refusal")
    };
    let dt = dec("0.25");
    assert_eq!(refused(vec![]), Refusal::NoSegment);
    assert_eq!(refused(vec![(dt, 1); 65]), Refusal::SegmentCount);
    assert_eq!(
        refused(vec![(dt, 1), (dt, 0)]),
        Refusal::Segment { segment: 2 }
    );
    assert_eq!(
        refused(vec![(Decimal::ZERO, 1)]),
        Refusal::Segment { segment: 1 }
    );
    assert_eq!(
        refused(vec![(dt, 4096), (dt, 1)]),
        Refusal::StepCount { segment: 2 }
    );
    assert_eq!(refused(vec![(Decimal::new(1, 29), 1)]), Refusal::Scale);
}

#[test]
fn windows_and_matrices() {
    let mut workspace = vec![0.0; workspace_length(1)];
    let mut vix = |window, factors: &[Decimal]| qrh::vix(&model(), window, factors, &mut workspace);
    assert_eq!(vix(Decimal::ZERO, &[Decimal::ZERO]), Err(Refusal::Window));
    assert_eq!(vix(Decimal::ONE, &[]), Err(Refusal::FactorCount));
    assert_eq!(
        vix(Decimal::ONE, &[Decimal::new(1, 29)]),
        Err(Refusal::Scale)
    );
    assert_eq!(
        qrh::vix(&model(), Decimal::ONE, &[Decimal::ZERO], &mut []),
        Err(Refusal::Workspace)
    );

    let matrix = |dimension: usize, entries: usize, room: usize| {
        qrh::exponential(
            dimension,
            &vec![0.0; entries],
            &mut vec![0.0; entries],
            &mut vec![0.0; room],
        )
    };
    assert_eq!(matrix(0, 0, 0), Err(Refusal::Matrix));
    assert_eq!(matrix(68, 68 * 68, 5 * 68 * 68), Err(Refusal::Matrix));
    assert_eq!(matrix(2, 3, 20), Err(Refusal::Matrix));
    assert_eq!(matrix(2, 4, 19), Err(Refusal::Workspace));
    assert_eq!(matrix(67, 67 * 67, 5 * 67 * 67), Ok(0));
}

#[test]
fn batches() {
    let price = |strike: &str, paths: usize, draws: usize, table: usize| {
        let option = Vanilla::call(dec(strike));
        qrh::vanilla(
            &model(),
            &quarter(),
            &option,
            paths,
            &vec![0.5; draws],
            &mut vec![0.0; table],
        )
        .expect_err("a refusal")
    };
    assert_eq!(price("-1", 2, 2, 2), Refusal::Strike);
    assert_eq!(
        price("0.00000000000000000000000000001", 2, 2, 2),
        Refusal::Scale
    );
    assert_eq!(price("100", 1, 1, 1), Refusal::PathCount);
    assert_eq!(price("100", 65537, 2, 2), Refusal::PathCount);
    assert_eq!(price("100", 2, 3, 2), Refusal::DrawCount);
    assert_eq!(price("100", 2, 2, 3), Refusal::TableLength);
    let odd = qrh::mirrored(&model(), &quarter(), &at_100(), 3, &[0.5], &mut [0.0; 3]);
    assert_eq!(odd, Err(Refusal::PathCount));
    for draws in [&[0.5][..], &[]] {
        let pair = qrh::mirrored(&model(), &quarter(), &at_100(), 2, draws, &mut [0.0; 2]);
        assert_eq!(pair, Err(Refusal::Pairs));
    }
}

#[test]
fn barriers() {
    let fine = "0.00000000000000000000000000001";
    for (strike, barrier, paths, expected) in [
        ("100", "0", 2, Refusal::Barrier),
        ("100", "-1", 2, Refusal::Barrier),
        ("100", fine, 2, Refusal::Scale),
        // In the order of the questions: 18 and 1 of the strike, 27 and 1 of the barrier, 19.
        ("-1", "0", 1, Refusal::Strike),
        (fine, "0", 1, Refusal::Scale),
        ("100", "0", 1, Refusal::Barrier),
        ("100", fine, 1, Refusal::Scale),
        ("100", "50", 1, Refusal::PathCount),
    ] {
        let put = DownAndOut {
            strike: dec(strike),
            barrier: dec(barrier),
        };
        let mut seen = [7.0; 2];
        for call in [qrh::down_and_out, qrh::mirrored_down_and_out] {
            let answer = call(&model(), &quarter(), &put, paths, &[0.5, 0.5], &mut seen);
            assert_eq!(answer, Err(expected), "strike {strike}, barrier {barrier}");
        }
        assert_eq!(seen, [7.0; 2]);
    }
}

#[test]
fn a_trace_that_stops_keeps_the_points_before() {
    let schedule = Schedule::from([(dec("0.25"), 3)]);
    let (mut spots, mut variances, mut z, mut factors) = ([7.0; 4], [7.0; 4], [7.0; 4], [7.0; 4]);
    let tables = Tables {
        spots: &mut spots,
        variances: &mut variances,
        z: &mut z,
        factors: &mut factors,
    };
    let answer = qrh::trace(&model(), &schedule, &[0.5, f64::NAN, 0.5], tables);
    assert_eq!(
        answer,
        Err(Refusal::NonFinite {
            path: 1,
            step: 2,
            quantity: Quantity::Spot,
            steps: 2
        })
    );
    assert_eq!(spots, [100.0, 150.0, 7.0, 7.0]);
    assert_eq!((variances[2], z[2], factors[2]), (7.0, 7.0, 7.0));
}

#[test]
fn each_quantity_that_is_not_finite() {
    let stop =
        |model: &Model, draw: f64| Path::trace(model, &quarter(), &[draw]).expect_err("a refusal");
    let at = |quantity| Refusal::NonFinite {
        path: 1,
        step: 1,
        quantity,
        steps: 1,
    };
    assert_eq!(stop(&model(), f64::INFINITY), at(Quantity::Spot));
    let steep = Model {
        eta: dec("10000000000000000000000000000"),
        ..model()
    };
    assert_eq!(stop(&steep, 1e290), at(Quantity::Z));
    assert_eq!(stop(&model(), 1e200), at(Quantity::Variance));
}

#[test]
fn estimates_that_are_not_finite() {
    // A squared deviation overflows: of the payoff too where the large spot pays.
    let refused = |draw: f64| {
        qrh::vanilla(
            &model(),
            &quarter(),
            &at_100(),
            2,
            &[draw, 0.5],
            &mut [0.0; 2],
        )
        .expect_err("a refusal")
    };
    assert_eq!(
        refused(1e153),
        Refusal::Estimate {
            which: Reported::PayoffError,
            steps: 2
        }
    );
    assert_eq!(
        refused(-1e153),
        Refusal::Estimate {
            which: Reported::MeanError,
            steps: 2
        }
    );
}

/// A batch of three VIX futures, and an evaluation at the given factor.
fn vix_refused(model: &Model, draws: [f64; 3], factor: Decimal) -> [Refusal; 2] {
    let mut workspace = vec![0.0; workspace_length(1)];
    let quarter_year = dec("0.25");
    let future = VixPayoff::Future;
    let batch = qrh::vix_batch(
        model,
        &quarter(),
        quarter_year,
        &future,
        3,
        &draws,
        &mut workspace,
        &mut [0.0; 3],
    );
    let value = qrh::vix(model, quarter_year, &[factor], &mut workspace);
    [batch.expect_err("a refusal"), value.expect_err("a refusal")]
}

#[test]
fn vix_squared_that_is_not_finite() {
    // The moments grow to about 1e292 within the window, so a large factor overflows.
    let steep = Model {
        a: Decimal::from(2700),
        ..model()
    };
    let expected = [
        Refusal::VixNonFinite {
            path: Some(2),
            steps: 3,
        },
        Refusal::VixNonFinite {
            path: None,
            steps: 0,
        },
    ];
    assert_eq!(
        vix_refused(&steep, [0.5, 2e8, 0.5], Decimal::from(100_000_000)),
        expected
    );
    let steeper = Model {
        a: Decimal::from(10_000),
        ..model()
    };
    assert_eq!(
        vix_refused(&steeper, [0.5; 3], Decimal::ZERO),
        [Refusal::Exponential; 2]
    );
}

#[test]
fn vix_squared_that_is_not_above_zero() {
    // (z - b)^2 is multiplied out and cancels, and c is lost in the rounding.
    let tiny = Decimal::new(1, 28);
    let model = Model {
        b: Decimal::ONE,
        c: tiny,
        lambda: tiny,
        eta: tiny,
        discounts: vec![2.0_f64.powi(-80)],
        factors: vec![Decimal::ONE],
        ..model()
    };
    let expected = [
        Refusal::VixNotPositive {
            path: Some(1),
            steps: 3,
        },
        Refusal::VixNotPositive {
            path: None,
            steps: 0,
        },
    ];
    assert_eq!(vix_refused(&model, [0.0; 3], Decimal::ONE), expected);
}
