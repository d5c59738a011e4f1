//! The checked figures of the specification, through the safe calls.

mod common;

use common::{at_100, dec, model, quarter};
use qrh::{
    Decimal, DownAndOut, Model, Path, Quantity, Refusal, Reported, Schedule, Vanilla, VixPayoff,
    workspace_length,
};

fn bits(text: &str) -> u64 {
    qrh::convert(dec(text))
        .expect("a scale of at most 28")
        .to_bits()
}

#[test]
fn conversion() {
    assert_eq!(bits("0.1"), 0x3FB9_9999_9999_999A);
    assert_eq!(
        qrh::convert(dec("9007199254740993")),
        Ok(9007199254740992.0)
    );
    assert_eq!(
        qrh::convert(dec("9007199254740995")),
        Ok(9007199254740996.0)
    );
    assert_eq!(
        qrh::convert(dec("9007199254740993.0000001")),
        Ok(9007199254740994.0)
    );
    let at_29 = |coefficient| Decimal::from_parts(false, coefficient, 29).expect("below 2^96");
    assert_eq!(qrh::convert(at_29(0)).map(f64::to_bits), Ok(0));
    assert_eq!(qrh::convert(at_29(1)), Err(Refusal::Scale));
    assert_eq!(bits("-0"), 0);
}

#[test]
fn square_root() {
    assert_eq!(qrh::sqrt(f64::from_bits(1)), 2.0_f64.powi(-537));
    assert_eq!(qrh::sqrt(2.0).to_bits(), 0x3FF6_A09E_667F_3BCD);
    assert_eq!(qrh::sqrt(-0.0).to_bits(), 1 << 63);
    assert_eq!(qrh::sqrt(f64::INFINITY), f64::INFINITY);
    assert!(qrh::sqrt(-1.0).is_nan() && qrh::sqrt(f64::NAN).is_nan());
}

#[test]
fn traces() {
    let up = Path::trace(&model(), &quarter(), &[0.5]).expect("an answer");
    assert_eq!(up.spots, [100.0, 150.0]);
    assert_eq!((&up.factors, &up.z), (&vec![0.0, 0.25], &vec![0.0, 0.25]));
    assert_eq!(up.variances, [4.0, 4.0625]);
    let down = Path::trace(&model(), &quarter(), &[-1.0]).expect("an answer");
    assert_eq!(
        (down.spots[1], down.z[1], down.variances[1]),
        (0.0, -0.5, 4.25)
    );
}

#[test]
fn vanilla_batch() {
    let mut observations = [7.0; 2];
    let answer = qrh::vanilla(
        &model(),
        &quarter(),
        &at_100(),
        2,
        &[0.5, -1.0],
        &mut observations,
    )
    .expect("an answer");
    assert_eq!((answer.price, answer.price_error), (25.0, 25.0));
    assert_eq!((answer.spot_mean, answer.spot_error), (75.0, 75.0));
    assert_eq!((answer.paths, answer.non_positive, answer.steps), (2, 1, 2));
    assert_eq!(observations, [150.0, 0.0]);

    let mut observations = [7.0; 2];
    let draws = [0.5, f64::INFINITY];
    let refusal = qrh::vanilla(
        &model(),
        &quarter(),
        &at_100(),
        2,
        &draws,
        &mut observations,
    )
    .unwrap_err();
    assert_eq!(
        refusal,
        Refusal::NonFinite {
            path: 2,
            step: 1,
            quantity: Quantity::Spot,
            steps: 2
        }
    );
    assert_eq!((refusal.number(), refusal.place()), (22, [2, 1, 1, 2]));
    assert_eq!(observations, [150.0, 7.0]);
}

#[test]
fn mirrored_batch() {
    let mut spots = [0.0; 4];
    let call = Vanilla::call(Decimal::from(100));
    let answer = qrh::mirrored(&model(), &quarter(), &call, 4, &[0.5, 0.25], &mut spots);
    let answer = answer.expect("an answer");
    assert_eq!((answer.price, answer.price_error), (18.75, 6.25));
    assert_eq!((answer.spot_mean, answer.spot_error), (100.0, 0.0));
    assert_eq!((answer.paths, answer.non_positive, answer.steps), (4, 0, 4));
    assert_eq!(spots, [150.0, 50.0, 125.0, 75.0]);
}

#[test]
fn an_average_that_overflows() {
    // Each path ends above 10^308, and the two of a pair add up to infinity.
    let model = Model {
        spot: dec("0.000000000001"),
        ..model()
    };
    let schedule = Schedule::from([(dec("0.25"), 22)]);
    let (call, mut spots) = (Vanilla::call(Decimal::ZERO), [0.0; 4]);
    let answer = qrh::mirrored(&model, &schedule, &call, 4, &[64.0; 44], &mut spots);
    let which = Reported::Payoff;
    assert_eq!(answer, Err(Refusal::Estimate { which, steps: 88 }));
    assert!(spots.iter().all(|spot| spot.is_finite() && *spot > 1e308));
}

/// A put at 200 that vanishes at this barrier.
fn at_200(barrier: &str) -> DownAndOut {
    DownAndOut {
        strike: Decimal::from(200),
        barrier: dec(barrier),
    }
}

#[test]
fn down_and_out_batch() {
    // The spots are 100, 150 and 100, 0: the start counts, and so does the barrier itself.
    for (barrier, price, error) in [
        ("50", 25.0, 25.0),
        ("99", 25.0, 25.0),
        ("99.9999999999999999999", 0.0, 0.0), // as converted it is 100
        ("100", 0.0, 0.0),
        ("1000", 0.0, 0.0),
    ] {
        let mut observations = [7.0; 2];
        let answer = qrh::down_and_out(
            &model(),
            &quarter(),
            &at_200(barrier),
            2,
            &[0.5, -1.0],
            &mut observations,
        )
        .expect("an answer");
        assert_eq!((answer.price, answer.price_error), (price, error));
        assert_eq!((answer.spot_mean, answer.spot_error), (75.0, 75.0));
        assert_eq!((answer.paths, answer.non_positive, answer.steps), (2, 1, 2));
        assert_eq!(observations, [150.0, 0.0]);
    }
}

#[test]
fn a_spot_that_fell_and_rose_again() {
    // Each path has the spot 50 after its first step, and ends above 75.
    let draws = [-0.5, 1.0, -0.5, 0.5].repeat(3);
    let schedule = Schedule::from([(dec("0.25"), 2)]);
    for paths in [2, 4, 6] {
        let (draws, mut seen) = (&draws[..2 * paths], vec![0.0; paths]);
        let mut price =
            |option| qrh::down_and_out(&model(), &schedule, &option, paths, draws, &mut seen);
        let vanished = price(at_200("50")).expect("an answer");
        assert_eq!((vanished.price, vanished.price_error), (0.0, 0.0));
        let alive = price(at_200("49"));
        assert!(seen.iter().all(|spot| *spot > 75.0));
        let put = Vanilla::put(Decimal::from(200));
        let plain = qrh::vanilla(&model(), &schedule, &put, paths, draws, &mut seen);
        assert_eq!(alive, plain);
    }
}

#[test]
fn matrix_exponential() {
    let (mut output, mut workspace) = ([0.0; 4], [0.0; 20]);
    assert_eq!(
        qrh::exponential(2, &[0.0, 1.0, 0.0, 0.0], &mut output, &mut workspace),
        Ok(1)
    );
    assert_eq!(output, [1.0, 1.0, 0.0, 1.0]);
    let (mut output, mut workspace) = ([0.0; 1], [0.0; 5]);
    assert_eq!(
        qrh::exponential(1, &[0.5], &mut output, &mut workspace),
        Ok(0)
    );
    assert_eq!(output[0], 1.648_721_270_700_128_2);
    let large = [2.0_f64.powi(1023)];
    assert_eq!(
        qrh::exponential(1, &large, &mut output, &mut workspace),
        Err(Refusal::Exponential)
    );
}

#[test]
fn vix() {
    let flat = Model {
        a: Decimal::ZERO,
        ..model()
    };
    let mut workspace = vec![0.0; workspace_length(1)];
    let answer = qrh::vix(&flat, dec("0.25"), &[Decimal::ZERO], &mut workspace).expect("an answer");
    assert_eq!((answer.squared, answer.index), (40000.0, 200.0));

    let mut observations = [0.0; 2];
    let draws = [0.5, -1.0];
    let mut price = |payoff: VixPayoff| {
        qrh::vix_batch(
            &flat,
            &quarter(),
            dec("0.25"),
            &payoff,
            2,
            &draws,
            &mut workspace,
            &mut observations,
        )
        .expect("an answer")
    };
    let future = price(VixPayoff::Future);
    assert_eq!(
        (
            future.payoff,
            future.payoff_error,
            future.index,
            future.index_error
        ),
        (200.0, 0.0, 200.0, 0.0)
    );
    assert_eq!((future.paths, future.steps), (2, 2));
    assert_eq!(
        price(VixPayoff::Vanilla(Vanilla::call(dec("150")))).payoff,
        50.0
    );
    assert_eq!(
        price(VixPayoff::Vanilla(Vanilla::put(dec("201.5")))).payoff,
        1.5
    );
    assert_eq!(observations, [40000.0; 2]);
}

/// Inputs that differ, for two steps of a quarter: z is 1 and the variance 4 at the start.
fn uneven() -> (Model, Schedule) {
    let model = Model {
        weights: vec![2.0],
        a: Decimal::from(8),
        b: dec("0.5"),
        c: Decimal::from(2),
        lambda: Decimal::from(3),
        eta: dec("1.5"),
        factors: vec![dec("0.5")],
        ..model()
    };
    (model, Schedule::from([(dec("0.25"), 2)]))
}

/// Three paths that rise and one that falls, of two steps each.
const FALL: [f64; 8] = [0.5, 0.0, 0.5, 0.0, 0.5, 0.0, -1.0, 0.0];

/// Two lists of draws, and the spots of their mirrored paths.
const RISES: [f64; 4] = [0.5, 0.5, 0.25, 0.0];
const MIRRORED: [f64; 4] = [203.033_008_588_991_07, -5.901_699_437_494_742, 125.0, 75.0];

// Names do not cross the edge, so in the next four tests no two values or tables of an answer are
// equal.

#[test]
fn each_table_of_a_trace_is_its_own() {
    let (model, schedule) = uneven();
    let path = Path::trace(&model, &schedule, &[0.25, 0.0]).expect("an answer");
    assert_eq!(path.spots, [100.0, 125.0, 125.0]);
    assert_eq!(path.variances, [4.0, 3.125, 4.257_812_5]);
    assert_eq!(path.z, [1.0, 0.125, -0.031_25]);
    assert_eq!(path.factors, [0.5, 0.0625, -0.015_625]);
}

#[test]
fn each_value_of_a_batch_is_its_own() {
    let (model, schedule) = uneven();
    let call = Vanilla::call(Decimal::from(110));
    let mut spots = [0.0; 4];
    let answer = qrh::vanilla(&model, &schedule, &call, 4, &FALL, &mut spots).expect("an answer");
    assert_eq!((answer.price, answer.price_error), (30.0, 10.0));
    assert_eq!((answer.spot_mean, answer.spot_error), (112.5, 37.5));
    assert_eq!((answer.paths, answer.non_positive, answer.steps), (4, 1, 8));
    assert_eq!(spots, [150.0, 150.0, 150.0, 0.0]);
    let answer = qrh::mirrored(&model, &schedule, &call, 4, &RISES, &mut spots);
    let answer = answer.expect("an answer");
    assert_eq!(
        (answer.price, answer.price_error),
        (27.008_252_147_247_767, 19.508_252_147_247_767)
    );
    assert_eq!(
        (answer.spot_mean, answer.spot_error),
        (99.282_827_287_874_08, 0.717_172_712_125_915_3)
    );
    assert_eq!((answer.paths, answer.non_positive, answer.steps), (4, 1, 8));
    assert_eq!(spots, MIRRORED);
}

#[test]
fn each_value_of_a_barrier_batch_is_its_own() {
    let (model, schedule) = uneven();
    let put = DownAndOut {
        strike: Decimal::from(170),
        barrier: Decimal::from(60),
    };
    let mut spots = [0.0; 4];
    let answer = qrh::down_and_out(&model, &schedule, &put, 4, &FALL, &mut spots);
    let answer = answer.expect("an answer");
    assert_eq!((answer.price, answer.price_error), (15.0, 5.0));
    assert_eq!((answer.spot_mean, answer.spot_error), (112.5, 37.5));
    assert_eq!((answer.paths, answer.non_positive, answer.steps), (4, 1, 8));
    assert_eq!(spots, [150.0, 150.0, 150.0, 0.0]);
    let put = DownAndOut {
        strike: Decimal::from(230),
        ..put
    };
    let answer = qrh::mirrored_down_and_out(&model, &schedule, &put, 4, &RISES, &mut spots);
    let answer = answer.expect("an answer");
    assert_eq!(
        (answer.price, answer.price_error),
        (71.741_747_852_752_24, 58.258_252_147_247_76)
    );
    assert_eq!(
        (answer.spot_mean, answer.spot_error),
        (99.282_827_287_874_08, 0.717_172_712_125_915_3)
    );
    assert_eq!((answer.paths, answer.non_positive, answer.steps), (4, 1, 8));
    assert_eq!(spots, MIRRORED);
}

#[test]
fn each_value_of_the_vix_is_its_own() {
    let (model, schedule) = uneven();
    let window = dec("0.0625");
    let mut room = vec![0.0; workspace_length(1)];
    let now = qrh::vix(&model, window, &[dec("0.25")], &mut room).expect("an answer");
    assert_eq!(
        (now.squared, now.index),
        (210_107.752_564_149_1, 458.375_122_104_318_73)
    );
    let call = VixPayoff::Vanilla(Vanilla::call(Decimal::from(500)));
    let mut seen = [0.0; 4];
    let answer = qrh::vix_batch(
        &model, &schedule, window, &call, 4, &FALL, &mut room, &mut seen,
    );
    let answer = answer.expect("an answer");
    assert_eq!(answer.payoff, 157.444_153_759_023_15);
    assert_eq!(answer.payoff_error, 52.481_384_586_341_05);
    assert_eq!(
        (answer.index, answer.index_error),
        (649.181_900_849_653_5, 60.743_637_495_710_67)
    );
    assert_eq!((answer.paths, answer.steps), (4, 8));
    let high = 503_994.269_994_955_2;
    assert_eq!(seen, [high, high, high, 218_043.225_532_735_73]);
}

#[test]
fn limits() {
    let wide = |n: usize| Model {
        weights: vec![1.0; n],
        discounts: vec![1.0; n],
        factors: vec![Decimal::ZERO; n],
        ..model()
    };
    assert!(Path::trace(&wide(10), &quarter(), &[0.5]).is_ok());
    assert_eq!(
        Path::trace(&wide(11), &quarter(), &[0.5]),
        Err(Refusal::WeightCount)
    );
    assert_eq!(
        (
            workspace_length(1),
            workspace_length(5),
            workspace_length(10)
        ),
        (80, 2420, 22445)
    );

    let steps = |steps: u32| Schedule::from([(dec("0.25"), steps)]);
    assert_eq!(
        Path::trace(&model(), &steps(4096), &[0.0; 4096]).map(|path| path.spots.len()),
        Ok(4097)
    );
    let refusal = Err(Refusal::StepCount { segment: 1 });
    assert_eq!(Path::trace(&model(), &steps(4097), &[0.0; 4097]), refusal);
    assert_eq!(Path::trace(&model(), &steps(u32::MAX), &[]), refusal);
}

#[test]
fn the_segment_that_contains_a_step() {
    let schedule = Schedule::from([(dec("0.25"), 2), (dec("0.5"), 3)]);
    assert_eq!(schedule.steps(), 5);
    let draws = [0.5, -0.25, 1.0, 0.5, -0.5];
    let path = Path::trace(&model(), &schedule, &draws).expect("an answer");
    for step in 1..=5 {
        let dt: f64 = if step <= 2 { 0.25 } else { 0.5 };
        let (spot, variance) = (path.spots[step - 1], path.variances[step - 1]);
        let d = variance.sqrt() * (dt.sqrt() * draws[step - 1]);
        assert_eq!(path.spots[step], spot + spot * d, "step {step}");
    }
}
