//! The core, called through its C exports.

use oracle::cases::{Case, Model, Outcome, Terms, lent};
use oracle::edge::{self, Decimal, Estimate, Factors, Schedule, VixPayoff};
use qrh_sys::{
    qrh_convert, qrh_down_and_out, qrh_exponential, qrh_mirrored, qrh_mirrored_down_and_out,
    qrh_sqrt, qrh_trace, qrh_vanilla, qrh_vix, qrh_vix_batch,
};

/// A table lent to the core, between two guards that it must not touch.
struct Lent {
    whole: Vec<f64>,
    length: usize,
}

const GUARD: usize = 8;
const GUARD_VALUE: f64 = -123.456;

impl Lent {
    fn new(table: usize, length: usize) -> Self {
        let mut whole = vec![GUARD_VALUE; length + 2 * GUARD];
        whole[GUARD..GUARD + length].copy_from_slice(&lent(table, length));
        Self { whole, length }
    }

    fn pointer(&mut self) -> *mut f64 {
        self.whole[GUARD..].as_mut_ptr()
    }

    fn after(self) -> Vec<f64> {
        let (front, rest) = self.whole.split_at(GUARD);
        let (table, back) = rest.split_at(self.length);
        assert!(
            front.iter().chain(back).all(|value| *value == GUARD_VALUE),
            "a write outside a lent table"
        );
        table.to_vec()
    }
}

/// The outcome of the core.
#[must_use]
pub fn run(case: &Case) -> Outcome {
    match case {
        Case::Convert(decimal) => convert(*decimal),
        Case::Sqrt(value) => sqrt(*value),
        Case::Trace {
            model,
            schedule,
            draws,
            tables,
        } => trace(model, schedule, draws, *tables),
        Case::Vanilla {
            mirrored,
            model,
            schedule,
            terms,
            paths,
            draws,
            observations,
        } => match *terms {
            Terms::Vanilla { put, strike } => vanilla(
                if *mirrored { qrh_mirrored } else { qrh_vanilla },
                (put, strike),
                model,
                schedule,
                *paths,
                draws,
                *observations,
            ),
            Terms::DownAndOut { strike, barrier } => vanilla(
                if *mirrored {
                    qrh_mirrored_down_and_out
                } else {
                    qrh_down_and_out
                },
                (strike, barrier),
                model,
                schedule,
                *paths,
                draws,
                *observations,
            ),
        },
        Case::Vix {
            model,
            window,
            given,
            workspace,
        } => vix(model, *window, given, *workspace),
        Case::VixBatch {
            model,
            schedule,
            window,
            payoff,
            paths,
            draws,
            workspace,
            observations,
        } => vix_batch(
            model,
            schedule,
            *window,
            payoff,
            *paths,
            draws,
            *workspace,
            *observations,
        ),
        Case::Exponential {
            dimension,
            input,
            output,
            workspace,
        } => exponential(*dimension, input, *output, *workspace),
    }
}

fn convert(decimal: Decimal) -> Outcome {
    // SAFETY: no pointer is given.
    let answer = unsafe { qrh_convert(decimal) };
    Outcome {
        number: answer.number,
        place: answer.place,
        values: vec![answer.value],
        ..Default::default()
    }
}

fn sqrt(value: f64) -> Outcome {
    Outcome {
        // SAFETY: no pointer is given.
        values: vec![unsafe { qrh_sqrt(value) }],
        ..Default::default()
    }
}

fn trace(model: &Model, schedule: &Schedule, draws: &[f64], tables: [usize; 4]) -> Outcome {
    let [mut spots, mut variances, mut z, mut factors] =
        [1, 2, 3, 4].map(|t| Lent::new(t, tables[t - 1]));
    // SAFETY: each pointer is followed by the length of its table, and each lent table is its own.
    let answer = unsafe {
        qrh_trace(
            model.weights.as_ptr(),
            model.weights.len(),
            model.discounts.as_ptr(),
            model.discounts.len(),
            model.inputs,
            *schedule,
            draws.as_ptr(),
            draws.len(),
            spots.pointer(),
            tables[0],
            variances.pointer(),
            tables[1],
            z.pointer(),
            tables[2],
            factors.pointer(),
            tables[3],
        )
    };
    Outcome {
        number: answer.number,
        place: answer.place,
        counts: vec![answer.steps],
        tables: vec![spots.after(), variances.after(), z.after(), factors.after()],
        ..Default::default()
    }
}

/// The export of a batch on the spot. After the schedule it takes put and strike, or strike and
/// barrier.
type Export<First> = unsafe extern "C" fn(
    *const f64,
    usize,
    *const f64,
    usize,
    edge::Model,
    Schedule,
    First,
    Decimal,
    usize,
    *const f64,
    usize,
    *mut f64,
    usize,
) -> Estimate;

fn vanilla<First>(
    export: Export<First>,
    (first, second): (First, Decimal),
    model: &Model,
    schedule: &Schedule,
    paths: usize,
    draws: &[f64],
    observations: usize,
) -> Outcome {
    let mut table = Lent::new(1, observations);
    // SAFETY: each pointer is followed by the length of its table, and the lent table is its own.
    let answer = unsafe {
        export(
            model.weights.as_ptr(),
            model.weights.len(),
            model.discounts.as_ptr(),
            model.discounts.len(),
            model.inputs,
            *schedule,
            first,
            second,
            paths,
            draws.as_ptr(),
            draws.len(),
            table.pointer(),
            observations,
        )
    };
    Outcome {
        number: answer.number,
        place: answer.place,
        values: vec![
            answer.price,
            answer.price_error,
            answer.spot_mean,
            answer.spot_error,
        ],
        counts: vec![answer.paths, answer.non_positive, answer.steps],
        tables: vec![table.after()],
        ..Default::default()
    }
}

fn vix(model: &Model, window: Decimal, given: &Factors, workspace: usize) -> Outcome {
    let mut space = Lent::new(1, workspace);
    // SAFETY: each pointer is followed by the length of its table, and the workspace is its own.
    let answer = unsafe {
        qrh_vix(
            model.weights.as_ptr(),
            model.weights.len(),
            model.discounts.as_ptr(),
            model.discounts.len(),
            model.inputs,
            window,
            *given,
            space.pointer(),
            workspace,
        )
    };
    Outcome {
        number: answer.number,
        place: answer.place,
        values: vec![answer.squared, answer.index],
        workspace: space.after(),
        ..Default::default()
    }
}

fn vix_batch(
    model: &Model,
    schedule: &Schedule,
    window: Decimal,
    payoff: &VixPayoff,
    paths: usize,
    draws: &[f64],
    workspace: usize,
    observations: usize,
) -> Outcome {
    let mut space = Lent::new(1, workspace);
    let mut table = Lent::new(2, observations);
    // SAFETY: each pointer is followed by the length of its table, and each lent table is its own.
    let answer = unsafe {
        qrh_vix_batch(
            model.weights.as_ptr(),
            model.weights.len(),
            model.discounts.as_ptr(),
            model.discounts.len(),
            model.inputs,
            *schedule,
            window,
            *payoff,
            paths,
            draws.as_ptr(),
            draws.len(),
            space.pointer(),
            workspace,
            table.pointer(),
            observations,
        )
    };
    Outcome {
        number: answer.number,
        place: answer.place,
        values: vec![
            answer.payoff,
            answer.payoff_error,
            answer.index,
            answer.index_error,
        ],
        counts: vec![answer.paths, answer.steps],
        tables: vec![table.after()],
        workspace: space.after(),
        ..Default::default()
    }
}

fn exponential(dimension: usize, input: &[f64], output: usize, workspace: usize) -> Outcome {
    let mut table = Lent::new(1, output);
    let mut space = Lent::new(2, workspace);
    // SAFETY: each pointer is followed by the length of its table, and each lent table is its own.
    let answer = unsafe {
        qrh_exponential(
            dimension,
            input.as_ptr(),
            input.len(),
            table.pointer(),
            output,
            space.pointer(),
            workspace,
        )
    };
    Outcome {
        number: answer.number,
        place: answer.place,
        counts: vec![answer.squarings],
        tables: vec![table.after()],
        workspace: space.after(),
        ..Default::default()
    }
}
