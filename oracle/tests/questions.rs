//! The order of the questions: of any two that get a No, the earlier one gives the number.

use oracle::cases::{Case, Model, Terms};
use oracle::edge::{Decimal, Factors, Schedule, VixPayoff};
use oracle::figures::{model, quarter, schedule, whole};
use oracle::generator::decimal;
use oracle::questions::dimension;

/// The inputs of every call at once.
#[derive(Clone)]
struct Draft {
    model: Model,
    schedule: Schedule,
    window: Decimal,
    given: Factors,
    strike: Decimal,
    barrier: Decimal,
    paths: usize,
    draws: Vec<f64>,
    tables: [usize; 4],
    observations: usize,
    workspace: usize,
    mirrored: bool,
    future: bool,
}

const STEPS: usize = 5;

fn draft() -> Draft {
    let mut model = model();
    model.weights = vec![1.0, 0.5];
    model.discounts = vec![4.0, 2.0];
    model.inputs.factor_count = 2;
    Draft {
        schedule: schedule(&[(quarter(), 2), (decimal(false, 5, 1), 3)]),
        window: quarter(),
        given: Factors {
            count: 2,
            factors: model.inputs.factors,
        },
        model,
        strike: whole(100),
        barrier: whole(60),
        paths: 4,
        draws: vec![0.125; 4 * STEPS],
        tables: [STEPS + 1, STEPS + 1, STEPS + 1, 2 * (STEPS + 1)],
        observations: 8,
        workspace: 5 * dimension(2) * dimension(2),
        mirrored: false,
        future: false,
    }
}

type Damage = fn(&mut Draft);

/// A number, its place, and what gets that No.
type No = (u32, [u64; 4], Damage);

const NONE: [u64; 4] = [0; 4];
const OVER: u8 = 29;

const KERNEL: &[No] = &[
    (2, NONE, |d| d.model.weights.clear()),
    (2, NONE, |d| d.model.weights.resize(11, 1.0)),
    (3, NONE, |d| {
        d.model.discounts.pop();
    }),
    (4, [1, 1, 0, 0], |d| d.model.weights[0] = f64::NAN),
    (4, [2, 1, 0, 0], |d| d.model.discounts[0] = 0.0),
    (4, [1, 2, 0, 0], |d| {
        d.model.weights[1] = 2.0_f64.powi(90).next_up()
    }),
    (4, [2, 2, 0, 0], |d| {
        d.model.discounts[1] = 2.0_f64.powi(-90).next_down();
    }),
];

const PARAMETERS: &[No] = &[
    (5, NONE, |d| d.model.inputs.a = decimal(true, 1, OVER)),
    (6, NONE, |d| d.model.inputs.c = decimal(true, 0, 0)),
    (7, NONE, |d| d.model.inputs.lambda = whole(0)),
    (8, NONE, |d| d.model.inputs.eta.negative = true),
    (9, NONE, |d| d.model.inputs.spot = whole(0)),
    (10, NONE, |d| d.model.inputs.factor_count = usize::MAX),
    (1, NONE, |d| d.model.inputs.b = decimal(true, 1, OVER)),
    (1, NONE, |d| {
        d.model.inputs.factors[1] = decimal(true, 1, 255)
    }),
];

const SCHEDULE: &[No] = &[
    (11, NONE, |d| d.schedule.count = 0),
    (12, NONE, |d| d.schedule.count = 65),
    (13, [1, 0, 0, 0], |d| d.schedule.segments[0].dt = whole(0)),
    (14, [1, 0, 0, 0], |d| {
        d.schedule.segments[0].steps = u32::MAX
    }),
    (1, NONE, |d| d.schedule.segments[0].dt.scale = OVER),
    (13, [2, 0, 0, 0], |d| d.schedule.segments[1].steps = 0),
    (14, [2, 0, 0, 0], |d| d.schedule.segments[1].steps = 4095),
    (1, NONE, |d| d.schedule.segments[1].dt.scale = OVER),
];

const BUILD: &[No] = &[
    (15, NONE, |d| d.window.negative = true),
    (1, NONE, |d| d.window.scale = OVER),
    (16, NONE, |d| d.workspace -= 1),
    // The moments overflow.
    (17, NONE, |d| {
        d.model.inputs.a = whole((1 << 96) - 1);
        d.model.inputs.eta = whole((1 << 96) - 1);
    }),
];

const GIVEN: &[No] = &[
    (10, NONE, |d| d.given.count = 1),
    (1, NONE, |d| d.given.factors[0] = decimal(false, 1, OVER)),
];

const STRIKE: &[No] = &[
    (18, NONE, |d| d.strike = decimal(true, 1, OVER)),
    (1, NONE, |d| d.strike.scale = OVER),
];

const BARRIER: &[No] = &[
    (27, NONE, |d| d.barrier = decimal(true, 1, OVER)),
    (27, NONE, |d| d.barrier = decimal(false, 0, OVER)),
    (1, NONE, |d| d.barrier.scale = OVER),
];

const PATHS: &[No] = &[
    (19, NONE, |d| d.paths = 1),
    (19, NONE, |d| d.paths = 65_537),
    (20, NONE, |d| d.draws.push(0.0)),
    (21, NONE, |d| d.observations += 1),
];

const STEP: &[No] = &[(22, [2, 1, 1, 6], |d| {
    let (steps, draws) = (STEPS, &mut d.draws);
    if let Some(draw) = draws.get_mut(steps) {
        *draw = f64::INFINITY;
    }
})];

/// Each question alone, and each pair, the later damage first.
fn check(groups: &[&[No]], valid: &Draft, case: fn(&Draft) -> Case) {
    let all: Vec<No> = groups.concat();
    assert_eq!(case(valid).expected().number, 0);
    for (i, (number, place, damage)) in all.iter().enumerate() {
        for later in &all[i..] {
            let mut damaged = valid.clone();
            // A later damage may take away what an earlier one needs, as the weights.
            later.2(&mut damaged);
            damage(&mut damaged);
            let outcome = case(&damaged).expected();
            assert_eq!(
                (outcome.number, outcome.place),
                (*number, *place),
                "before {}",
                later.0
            );
            let steps = outcome.counts.last();
            assert!(matches!(number, 22..=25) || steps.is_none_or(|steps| *steps == 0));
        }
    }
}

#[test]
fn trace() {
    let mut valid = draft();
    valid.draws.truncate(STEPS);
    let tables: &[No] = &[
        (20, NONE, |d| d.draws.push(0.0)),
        (21, NONE, |d| d.tables[0] += 1),
        (21, NONE, |d| d.tables[1] = 0),
        (21, NONE, |d| d.tables[2] -= 1),
        (21, NONE, |d| d.tables[3] -= 1),
        (22, [1, 3, 1, 3], |d| d.draws[2] = f64::NAN),
    ];
    check(&[KERNEL, PARAMETERS, SCHEDULE, tables], &valid, |d| {
        Case::Trace {
            model: d.model.clone(),
            schedule: d.schedule,
            draws: d.draws.clone(),
            tables: d.tables,
        }
    });
}

fn batch_case(d: &Draft, terms: Terms) -> Case {
    Case::Vanilla {
        mirrored: d.mirrored,
        model: d.model.clone(),
        schedule: d.schedule,
        terms,
        paths: d.paths,
        draws: d.draws.clone(),
        observations: d.observations,
    }
}

fn vanilla_case(d: &Draft) -> Case {
    let terms = Terms::Vanilla {
        put: false,
        strike: d.strike,
    };
    batch_case(d, terms)
}

fn down_and_out_case(d: &Draft) -> Case {
    let terms = Terms::DownAndOut {
        strike: d.strike,
        barrier: d.barrier,
    };
    batch_case(d, terms)
}

#[test]
fn vanilla() {
    let groups = [KERNEL, PARAMETERS, SCHEDULE, STRIKE, PATHS, STEP];
    check(&groups, &draft(), vanilla_case);
}

#[test]
fn down_and_out() {
    let groups = [KERNEL, PARAMETERS, SCHEDULE, STRIKE, BARRIER, PATHS, STEP];
    check(&groups, &draft(), down_and_out_case);
}

fn mirrored_draft() -> Draft {
    let mut valid = draft();
    valid.mirrored = true;
    valid.draws.truncate(2 * STEPS);
    valid
}

const PAIRS: &[No] = &[
    (19, NONE, |d| d.paths = 0),
    (19, NONE, |d| d.paths = 1),
    (19, NONE, |d| d.paths = 5),
    (19, NONE, |d| d.paths = 65_537),
    (28, NONE, |d| d.paths = 2),
    (20, NONE, |d| d.draws.push(0.0)),
    (21, NONE, |d| d.observations += 1),
];

const MIRRORED_STEP: &[No] = &[(22, [3, 1, 1, 11], |d| {
    if let Some(draw) = d.draws.get_mut(STEPS) {
        *draw = f64::INFINITY;
    }
})];

#[test]
fn mirrored() {
    let paths = [PAIRS, MIRRORED_STEP].concat();
    let groups = [KERNEL, PARAMETERS, SCHEDULE, STRIKE, &paths];
    check(&groups, &mirrored_draft(), vanilla_case);
}

#[test]
fn mirrored_down_and_out() {
    let paths = [PAIRS, MIRRORED_STEP].concat();
    let groups = [KERNEL, PARAMETERS, SCHEDULE, STRIKE, BARRIER, &paths];
    check(&groups, &mirrored_draft(), down_and_out_case);
}

#[test]
fn vix() {
    check(&[KERNEL, PARAMETERS, BUILD, GIVEN], &draft(), |d| {
        Case::Vix {
            model: d.model.clone(),
            window: d.window,
            given: d.given,
            workspace: d.workspace,
        }
    });
}

fn vix_batch_case(d: &Draft) -> Case {
    Case::VixBatch {
        model: d.model.clone(),
        schedule: d.schedule,
        window: d.window,
        payoff: VixPayoff {
            future: d.future,
            put: true,
            strike: d.strike,
        },
        paths: d.paths,
        draws: d.draws.clone(),
        workspace: d.workspace,
        observations: d.observations,
    }
}

#[test]
fn vix_batch() {
    let groups = [KERNEL, PARAMETERS, SCHEDULE, BUILD, STRIKE, PATHS, STEP];
    check(&groups, &draft(), vix_batch_case);
    // A future has no strike to ask.
    let mut future = draft();
    future.future = true;
    future.strike = decimal(true, 1, OVER);
    let groups = [KERNEL, PARAMETERS, SCHEDULE, BUILD, PATHS, STEP];
    check(&groups, &future, vix_batch_case);
}

#[test]
fn exponential() {
    let number = |dimension: usize, input: usize, output: usize, workspace: usize| {
        let case = Case::Exponential {
            dimension,
            input: vec![f64::INFINITY; input],
            output,
            workspace,
        };
        case.expected().number
    };
    assert_eq!(number(0, 0, 0, 0), 26);
    assert_eq!(number(68, 68 * 68, 68 * 68, 0), 26);
    assert_eq!(number(1 << 32, 0, 0, 0), 26);
    assert_eq!(number(2, 3, 4, 0), 26);
    assert_eq!(number(2, 4, 5, 0), 26);
    assert_eq!(number(2, 4, 4, 19), 16);
    assert_eq!(number(2, 4, 4, 20), 17);
    assert_eq!(number(67, 67 * 67, 67 * 67, 5 * 67 * 67), 17);
}
