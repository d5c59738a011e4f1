//! The checked figures (docs/SPECIFICATION.md, section 19), on the oracle itself.

use oracle::calls;
use oracle::cases::{Terms, lent};
use oracle::edge::{self, Decimal, Estimate, Factors, Schedule, Segment, VixPayoff};
use oracle::generator::decimal;
use oracle::questions::{excluded_norm, squarings};

fn whole(value: u128) -> Decimal {
    decimal(false, value, 0)
}

fn quarter() -> Decimal {
    decimal(false, 25, 2)
}

/// n = 1, a = 1, b = 0, c = 4, lambda = eta = 1, spot 100, factor 0.
fn model() -> edge::Model {
    edge::Model {
        a: whole(1),
        b: whole(0),
        c: whole(4),
        lambda: whole(1),
        eta: whole(1),
        spot: whole(100),
        factor_count: 1,
        ..Default::default()
    }
}

fn schedule(segments: &[(Decimal, u32)]) -> Schedule {
    let mut schedule = Schedule {
        count: segments.len(),
        ..Default::default()
    };
    for (at, (dt, steps)) in segments.iter().enumerate().take(64) {
        schedule.segments[at] = Segment {
            dt: *dt,
            steps: *steps,
        };
    }
    schedule
}

const WEIGHT: [f64; 1] = [1.0];
const DISCOUNT: [f64; 1] = [4.0];

/// The number, the steps and the four tables of a trace of the figures' model.
fn trace(schedule: &Schedule, draws: &[f64]) -> (u32, u64, [Vec<f64>; 4]) {
    let mut tables = [1, 2, 3, 4].map(|table| lent(table, draws.len() + 1));
    let [spots, variances, z, factors] = &mut tables;
    let answer = calls::trace(
        &WEIGHT,
        &DISCOUNT,
        &model(),
        schedule,
        draws,
        spots,
        variances,
        z,
        factors,
    );
    (answer.number, answer.steps, tables)
}

fn vanilla(paths: usize, draws: &[f64], observations: &mut [f64]) -> Estimate {
    calls::vanilla(
        false,
        &WEIGHT,
        &DISCOUNT,
        &model(),
        &schedule(&[(quarter(), 1)]),
        &Terms::Vanilla {
            put: false,
            strike: whole(100),
        },
        paths,
        draws,
        observations,
    )
}

/// A put at 200 with the barrier, if there is one; two paths, or two mirrored pairs.
fn put_until(barrier: Option<u128>, mirrored: bool, draws: &[f64]) -> (Estimate, Vec<f64>) {
    let strike = whole(200);
    let terms = match barrier {
        None => Terms::Vanilla { put: true, strike },
        Some(barrier) => Terms::DownAndOut {
            strike,
            barrier: whole(barrier),
        },
    };
    let steps = draws.len() / 2;
    let paths = if mirrored { 4 } else { 2 };
    let mut observations = lent(1, paths);
    let answer = calls::vanilla(
        mirrored,
        &WEIGHT,
        &DISCOUNT,
        &model(),
        &schedule(&[(quarter(), steps as u32)]),
        &terms,
        paths,
        draws,
        &mut observations,
    );
    (answer, observations)
}

#[test]
fn p1_a_tenth() {
    let answer = calls::convert(decimal(false, 1, 1));
    assert_eq!(
        (answer.number, answer.value.to_bits()),
        (0, 0x3FB9_9999_9999_999A)
    );
}

#[test]
fn p2_tie_to_even_below() {
    let answer = calls::convert(whole(9_007_199_254_740_993));
    assert_eq!(answer.value, 9_007_199_254_740_992.0);
}

#[test]
fn p3_tie_to_even_above() {
    let answer = calls::convert(whole(9_007_199_254_740_995));
    assert_eq!(answer.value, 9_007_199_254_740_996.0);
}

#[test]
fn p4_just_above_a_tie() {
    let answer = calls::convert(decimal(false, 90_071_992_547_409_930_000_001, 7));
    assert_eq!(answer.value, 9_007_199_254_740_994.0);
}

#[test]
fn p5_scale_29() {
    let zero = calls::convert(decimal(true, 0, 29));
    assert_eq!((zero.number, zero.value.to_bits()), (0, 0));
    assert_eq!(calls::convert(decimal(false, 1, 29)).number, 1);
}

#[test]
fn p6_root_of_the_least_double() {
    assert_eq!(calls::sqrt(5e-324), 2.0_f64.powi(-537));
}

#[test]
fn p7_draw_of_a_half() {
    let (number, steps, tables) = trace(&schedule(&[(quarter(), 1)]), &[0.5]);
    assert_eq!((number, steps), (0, 1));
    assert_eq!(tables.map(|table| table[1]), [150.0, 4.0625, 0.25, 0.25]);
}

#[test]
fn p8_draw_of_minus_one() {
    let (number, _, tables) = trace(&schedule(&[(quarter(), 1)]), &[-1.0]);
    assert_eq!(number, 0);
    assert_eq!(tables.map(|table| table[1]), [0.0, 4.25, -0.5, -0.5]);
}

#[test]
fn p9_two_paths() {
    let mut observations = lent(1, 2);
    let answer = vanilla(2, &[0.5, -1.0], &mut observations);
    assert_eq!(
        answer,
        Estimate {
            number: 0,
            place: [0; 4],
            price: 25.0,
            price_error: 25.0,
            spot_mean: 75.0,
            spot_error: 75.0,
            paths: 2,
            non_positive: 1,
            steps: 2,
        }
    );
    assert_eq!(observations, [150.0, 0.0]);
}

#[test]
fn p10_infinite_second_draw() {
    let mut observations = lent(1, 2);
    let answer = vanilla(2, &[0.5, f64::INFINITY], &mut observations);
    assert_eq!(answer.number, 22);
    assert_eq!(answer.place, [2, 1, 1, 2]);
    assert_eq!(answer.steps, 2);
    assert_eq!(observations, [150.0, lent(1, 2)[1]]);
}

#[test]
fn p11_nilpotent() {
    let mut output = lent(1, 4);
    let answer = calls::exponential(2, &[0.0, 1.0, 0.0, 0.0], &mut output, &lent(2, 20));
    assert_eq!((answer.number, answer.squarings), (0, 1));
    assert_eq!(output, [1.0, 1.0, 0.0, 1.0]);
}

#[test]
fn p12_vix_without_feedback() {
    let mut model = model();
    model.a = whole(0);
    let given = Factors {
        count: 1,
        ..Default::default()
    };
    let answer = calls::vix(&WEIGHT, &DISCOUNT, &model, quarter(), &given, &lent(1, 80));
    assert_eq!(answer.number, 0);
    assert_eq!((answer.squared, answer.index), (40000.0, 200.0));
}

#[test]
fn ten_factors_pass_and_eleven_do_not() {
    let mut model = model();
    model.factor_count = 10;
    let given = schedule(&[(quarter(), 1)]);
    let mut tables = [1, 2, 3].map(|table| lent(table, 2));
    let mut factors = lent(4, 20);
    let [spots, variances, z] = &mut tables;
    let ten = [1.0; 10];
    let answer = calls::trace(
        &ten,
        &ten,
        &model,
        &given,
        &[0.5],
        spots,
        variances,
        z,
        &mut factors,
    );
    assert_eq!((answer.number, answer.steps), (0, 1));
    let eleven = [1.0; 11];
    let answer = calls::trace(
        &eleven,
        &eleven,
        &model,
        &given,
        &[0.5],
        spots,
        variances,
        z,
        &mut factors,
    );
    assert_eq!((answer.number, answer.place), (2, [0; 4]));
}

#[test]
fn steps_up_to_4096_pass() {
    let (number, steps, _) = trace(&schedule(&[(quarter(), 4096)]), &vec![0.0; 4096]);
    assert_eq!((number, steps), (0, 4096));
    let (number, steps, _) = trace(&schedule(&[(quarter(), 4097)]), &vec![0.0; 4097]);
    assert_eq!((number, steps), (14, 0));
}

#[test]
fn one_path_is_refused() {
    let answer = vanilla(1, &[0.5], &mut [0.0]);
    assert_eq!((answer.number, answer.place), (19, [0; 4]));
}

#[test]
fn norms_of_the_exponential() {
    let exponential = |entry: f64| {
        let mut output = lent(1, 1);
        let answer = calls::exponential(1, &[entry], &mut output, &lent(2, 5));
        (answer.number, answer.squarings, output[0])
    };
    let (number, squarings, value) = exponential(0.5);
    assert_eq!((number, squarings), (0, 0));
    assert!((value - 0.5_f64.exp()).abs() < 1e-15);
    assert_eq!(exponential(2.0_f64.powi(1023)), (17, 0, lent(1, 1)[0]));
    // -2^1022 has 1,023 squarings, and a little more has 1,024; both end at zero.
    assert_eq!(exponential(-(2.0_f64.powi(1022))), (0, 1023, 0.0));
    assert_eq!(exponential(-1.5 * 2.0_f64.powi(1022)), (0, 1024, 0.0));
}

#[test]
fn step_two_and_step_three_have_their_own_dt() {
    let half = decimal(false, 5, 1);
    let given = schedule(&[(quarter(), 2), (half, 3)]);
    let draws = [0.0, 0.0, 0.0, 0.0, 0.0];
    // With draws of zero z decays by (1 - dt) / (1 + 4 dt) a step.
    let mut start = model();
    start.factors[0] = whole(1);
    let mut tables = [1, 2, 3, 4].map(|table| lent(table, 6));
    let [spots, variances, z, factors] = &mut tables;
    let answer = calls::trace(
        &WEIGHT, &DISCOUNT, &start, &given, &draws, spots, variances, z, factors,
    );
    assert_eq!(answer.number, 0);
    let early = (1.0 - 0.25) / 2.0;
    let late = (1.0 - 0.5) / 3.0;
    for (step, ratio) in [(1, early), (2, early), (3, late), (4, late), (5, late)] {
        let found: f64 = z[step] / z[step - 1];
        assert!((found - ratio).abs() < 1e-12, "step {step}: {found}");
    }
}

/// A call over mirrored paths, from this spot, with so many steps to a path.
fn mirrored_call(
    spot: Decimal,
    strike: u128,
    steps: u32,
    paths: usize,
    draws: &[f64],
) -> (Estimate, Vec<f64>) {
    let model = edge::Model { spot, ..model() };
    let terms = Terms::Vanilla {
        put: false,
        strike: whole(strike),
    };
    let mut observations = lent(1, paths);
    let answer = calls::vanilla(
        true,
        &WEIGHT,
        &DISCOUNT,
        &model,
        &schedule(&[(quarter(), steps)]),
        &terms,
        paths,
        draws,
        &mut observations,
    );
    (answer, observations)
}

#[test]
fn a_mirrored_pair_is_one_sample() {
    let expected = Estimate {
        number: 0,
        place: [0; 4],
        price: 18.75,
        price_error: 6.25,
        spot_mean: 100.0,
        spot_error: 0.0,
        paths: 4,
        non_positive: 0,
        steps: 4,
    };
    let (answer, spots) = mirrored_call(whole(100), 100, 1, 4, &[0.5, 0.25]);
    assert_eq!(answer, expected);
    assert_eq!(spots, [150.0, 50.0, 125.0, 75.0]);
}

#[test]
fn one_mirrored_pair_is_refused() {
    // Before the draws are counted, and after the paths.
    for (paths, draws, number) in [(2, 1, 28), (2, 0, 28), (3, 1, 19), (0, 0, 19), (4, 1, 20)] {
        let (answer, _) = mirrored_call(whole(100), 100, 1, paths, &vec![0.5; draws]);
        assert_eq!(answer.number, number, "{paths} paths, {draws} draws");
        assert_eq!((answer.place, answer.steps), ([0; 4], 0));
    }
}

#[test]
fn an_average_that_overflows_is_not_repaired() {
    let spot = decimal(false, 1, 12);
    let (answer, spots) = mirrored_call(spot, 0, 22, 4, &[64.0; 44]);
    assert!(spots.iter().all(|spot| spot.is_finite() && *spot > 1e308));
    assert_eq!((answer.number, answer.place), (25, [1, 0, 0, 0]));
    assert_eq!(answer.steps, 88);
}

#[test]
fn a_barrier_is_touched_at_or_below_it() {
    // One path at 150 and one at 0, from 100.
    let draws = [0.5, -1.0];
    for (barrier, paid) in [(50, 25.0), (99, 25.0), (100, 0.0), (150, 0.0)] {
        let (answer, observations) = put_until(Some(barrier), false, &draws);
        let expected = Estimate {
            number: 0,
            place: [0; 4],
            price: paid,
            price_error: paid,
            spot_mean: 75.0,
            spot_error: 75.0,
            paths: 2,
            non_positive: 1,
            steps: 2,
        };
        assert_eq!(answer, expected, "barrier {barrier}");
        assert_eq!(observations, [150.0, 0.0]);
    }
    let (refused, observations) = put_until(Some(0), false, &draws);
    assert_eq!(
        refused,
        Estimate {
            number: 27,
            ..Default::default()
        }
    );
    assert_eq!(observations, lent(1, 2));
}

#[test]
fn a_barrier_is_touched_on_the_way() {
    // Down to 50, then up to 100.389.., in both paths.
    let draws = [-0.5, 1.0, -0.5, 1.0];
    let (vanilla, spots) = put_until(None, false, &draws);
    assert!(spots.iter().all(|spot| (100.389..100.390).contains(spot)));
    assert_eq!(vanilla.price, 200.0 - spots[0]);
    assert_eq!(put_until(Some(49), false, &draws), (vanilla, spots));
    for barrier in [50, 60] {
        let (answer, _) = put_until(Some(barrier), false, &draws);
        assert_eq!((answer.number, answer.steps), (0, 4));
        assert_eq!((answer.price, answer.price_error), (0.0, 0.0));
        assert_eq!(answer.spot_mean, vanilla.spot_mean);
    }
}

#[test]
fn each_path_of_a_mirrored_pair_has_its_own_lowest_spot() {
    // To 50 and back up in the first path, to 150 and down in the second, or the other way round.
    for sign in [1.0, -1.0] {
        let draws = [-0.5 * sign, 0.5 * sign];
        let (answer, spots) = put_until(Some(50), true, &[draws, draws].concat());
        assert_eq!(spots[..2], spots[2..]);
        let risen = if sign > 0.0 { spots[1] } else { spots[0] };
        assert_eq!(answer.price, (200.0 - risen) / 2.0);
        assert_eq!(answer.price_error, 0.0);
    }
}

#[test]
fn a_barrier_is_compared_as_converted() {
    // More than 100, or less, by less than a double shows: it touches 100. The next double below
    // 100 does not.
    let below = 100.0_f64.next_down();
    for (barrier, price) in [
        (decimal(false, 100_000_000_000_000_000_000_000_001, 24), 0.0),
        (decimal(false, 99_999_999_999_999_999_999_999_999, 24), 0.0),
        (decimal(false, 99_999_999_999_999_985_789, 18), 50.0),
    ] {
        assert!(price == 0.0 || calls::convert(barrier).value == below);
        let mut observations = lent(1, 2);
        let answer = calls::vanilla(
            false,
            &WEIGHT,
            &DISCOUNT,
            &model(),
            &schedule(&[(quarter(), 1)]),
            &Terms::DownAndOut {
                strike: whole(200),
                barrier,
            },
            2,
            &[0.5, 0.5],
            &mut observations,
        );
        assert_eq!((answer.number, answer.price), (0, price));
    }
}

#[test]
fn a_path_that_stops_outranks_a_bad_vix() {
    // Path 1 ends at a VIX squared that is not finite, path 2 stops.
    let mut observations = lent(2, 2);
    let payoff = VixPayoff {
        future: true,
        ..Default::default()
    };
    let batch = |draws: &[f64], observations: &mut [f64]| {
        let space = lent(1, 80);
        let given = schedule(&[(quarter(), 1)]);
        calls::vix_batch(
            &WEIGHT,
            &DISCOUNT,
            &model(),
            &given,
            quarter(),
            &payoff,
            2,
            draws,
            &space,
            observations,
        )
    };
    let bad = 2e154;
    let answer = batch(&[bad, 0.0], &mut observations);
    assert_eq!((answer.number, answer.place), (23, [1, 0, 0, 0]));
    assert_eq!(answer.steps, 2);
    assert!(!observations[0].is_finite() && observations[1].is_finite());
    let mut observations = lent(2, 2);
    let answer = batch(&[bad, f64::NAN], &mut observations);
    assert_eq!((answer.number, answer.place), (22, [2, 1, 1, 2]));
    assert_eq!(observations[1], lent(2, 2)[1]);
}

#[test]
fn sums_begin_at_minus_zero() {
    let empty: [f64; 0] = [];
    assert_eq!(empty.iter().sum::<f64>().to_bits(), (-0.0_f64).to_bits());
    let z: f64 = [1.0].iter().zip(&[-0.0]).map(|(w, f)| w * f).sum();
    assert_eq!(z.to_bits(), (-0.0_f64).to_bits());
}

#[test]
fn norms_left_out() {
    let close = 2.0_f64.powi(-40);
    for power in [-1000, -1, 0, 1, 52, 1000] {
        let power = 2.0_f64.powi(power);
        assert!(!excluded_norm(power));
        assert!(excluded_norm(power.next_up()) && excluded_norm(power.next_down()));
        assert!(excluded_norm(power * (1.0 + close)) && excluded_norm(power * (1.0 - close)));
        assert!(!excluded_norm(power * (1.0 + 1.1 * close)));
        assert!(!excluded_norm(power * (1.0 - 1.1 * close)));
    }
    assert!(!excluded_norm(0.0) && !excluded_norm(f64::NAN) && !excluded_norm(f64::INFINITY));
    assert!(!excluded_norm(5e-324) && excluded_norm(f64::MIN_POSITIVE.next_down()));
}

#[test]
fn least_squarings() {
    assert_eq!(squarings(0.0), 0);
    assert_eq!(squarings(0.5), 0);
    assert_eq!(squarings(0.5_f64.next_up()), 1);
    assert_eq!(squarings(1.0), 1);
    assert_eq!(squarings(2.0_f64.powi(1022)), 1023);
    assert_eq!(squarings(2.0_f64.powi(1023).next_down()), 1024);
}
