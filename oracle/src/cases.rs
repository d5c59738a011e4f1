//! A case is one outer call with its whole input; an outcome is all that the call answers and
//! leaves in the tables lent to it.

use crate::calls::{self, same};
use crate::edge::{self, Decimal, Factors, Schedule, VixPayoff};
use crate::questions;

/// The calls, by the names of their exports without `qrh_`, in the order of their numbers.
pub const CALLS: [&str; 10] = [
    "convert",
    "sqrt",
    "trace",
    "vanilla",
    "mirrored",
    "vix",
    "vix_batch",
    "exponential",
    "down_and_out",
    "mirrored_down_and_out",
];

/// What every call over a model takes.
#[derive(Debug, Clone, Default, PartialEq)]
pub struct Model {
    pub weights: Vec<f64>,
    pub discounts: Vec<f64>,
    pub inputs: edge::Model,
}

/// What a batch on the spot pays.
#[derive(Debug, Clone, Copy, PartialEq)]
pub enum Terms {
    Vanilla { put: bool, strike: Decimal },
    DownAndOut { strike: Decimal, barrier: Decimal },
}

/// One call. Lent tables are given by their lengths: `lent` fills them.
#[derive(Debug, Clone, PartialEq)]
pub enum Case {
    Convert(Decimal),
    Sqrt(f64),
    Trace {
        model: Model,
        schedule: Schedule,
        draws: Vec<f64>,
        /// Of spots, variances, z, factors.
        tables: [usize; 4],
    },
    /// A batch on the spot, mirrored or not.
    Vanilla {
        mirrored: bool,
        model: Model,
        schedule: Schedule,
        terms: Terms,
        paths: usize,
        draws: Vec<f64>,
        observations: usize,
    },
    Vix {
        model: Model,
        window: Decimal,
        given: Factors,
        workspace: usize,
    },
    VixBatch {
        model: Model,
        schedule: Schedule,
        window: Decimal,
        payoff: VixPayoff,
        paths: usize,
        draws: Vec<f64>,
        workspace: usize,
        observations: usize,
    },
    Exponential {
        dimension: usize,
        input: Vec<f64>,
        output: usize,
        workspace: usize,
    },
}

/// A lent table before the call: entry i of table t is the double with these bits. Tables of a call
/// count from 1 in the order of its parameters, the workspace among them.
#[must_use]
pub fn lent(table: usize, length: usize) -> Vec<f64> {
    (0..length as u64)
        .map(|i| f64::from_bits(0x4000_0000_0000_0000 + ((table as u64) << 44) + i))
        .collect()
}

/// What a call answered and left behind.
#[derive(Debug, Clone, Default)]
pub struct Outcome {
    pub number: u32,
    pub place: [u64; 4],
    /// The doubles of the answer, in order.
    pub values: Vec<f64>,
    /// The counts of the answer, in order.
    pub counts: Vec<u64>,
    /// The lent tables after the call, the workspace aside.
    pub tables: Vec<Vec<f64>>,
    /// The workspace after the call.
    pub workspace: Vec<f64>,
    /// Whether the workspace's content is free: 16 has passed.
    pub workspace_free: bool,
}

impl Outcome {
    /// Where `self`, which is expected, and `other` part, if they do.
    #[must_use]
    pub fn difference(&self, other: &Self) -> Option<String> {
        if self.number != other.number {
            return Some(format!(
                "number {} expected, {} answered",
                self.number, other.number
            ));
        }
        if self.place != other.place {
            return Some(format!(
                "number {}, place {:?} expected, {:?} answered",
                self.number, self.place, other.place
            ));
        }
        let mut pairs = vec![(String::from("values"), &self.values, &other.values)];
        for (i, (left, right)) in self.tables.iter().zip(&other.tables).enumerate() {
            pairs.push((format!("table {}", i + 1), left, right));
        }
        if !self.workspace_free {
            pairs.push((String::from("workspace"), &self.workspace, &other.workspace));
        }
        for (name, left, right) in pairs {
            assert_eq!(left.len(), right.len());
            if let Some(i) = (0..left.len()).find(|i| !same(left[*i], right[*i])) {
                return Some(format!(
                    "number {}, {name} at {i} (from 0): {} expected, {} answered",
                    self.number,
                    show(left[i]),
                    show(right[i])
                ));
            }
        }
        if self.counts != other.counts {
            return Some(format!(
                "number {}, counts {:?} expected, {:?} answered",
                self.number, self.counts, other.counts
            ));
        }
        None
    }
}

/// A double with its bits.
#[must_use]
pub fn show(value: f64) -> String {
    format!("{value:e} (bits {:016X})", value.to_bits())
}

impl Case {
    /// The call's place in `CALLS`.
    #[must_use]
    pub fn call(&self) -> usize {
        match self {
            Case::Convert(_) => 0,
            Case::Sqrt(_) => 1,
            Case::Trace { .. } => 2,
            Case::Vanilla {
                mirrored, terms, ..
            } => match (terms, mirrored) {
                (Terms::Vanilla { .. }, false) => 3,
                (Terms::Vanilla { .. }, true) => 4,
                (Terms::DownAndOut { .. }, false) => 8,
                (Terms::DownAndOut { .. }, true) => 9,
            },
            Case::Vix { .. } => 5,
            Case::VixBatch { .. } => 6,
            Case::Exponential { .. } => 7,
        }
    }

    /// The outcome that is expected.
    #[must_use]
    pub fn expected(&self) -> Outcome {
        match self {
            Case::Convert(decimal) => {
                let answer = calls::convert(*decimal);
                Outcome {
                    number: answer.number,
                    place: answer.place,
                    values: vec![answer.value],
                    ..Default::default()
                }
            }
            Case::Sqrt(value) => Outcome {
                values: vec![calls::sqrt(*value)],
                ..Default::default()
            },
            Case::Trace {
                model,
                schedule,
                draws,
                tables,
            } => {
                let [mut spots, mut variances, mut z, mut factors] =
                    [1, 2, 3, 4].map(|t| lent(t, tables[t - 1]));
                let answer = calls::trace(
                    &model.weights,
                    &model.discounts,
                    &model.inputs,
                    schedule,
                    draws,
                    &mut spots,
                    &mut variances,
                    &mut z,
                    &mut factors,
                );
                Outcome {
                    number: answer.number,
                    place: answer.place,
                    counts: vec![answer.steps],
                    tables: vec![spots, variances, z, factors],
                    ..Default::default()
                }
            }
            Case::Vanilla {
                mirrored,
                model,
                schedule,
                terms,
                paths,
                draws,
                observations,
            } => {
                let mut table = lent(1, *observations);
                let answer = calls::vanilla(
                    *mirrored,
                    &model.weights,
                    &model.discounts,
                    &model.inputs,
                    schedule,
                    terms,
                    *paths,
                    draws,
                    &mut table,
                );
                Outcome {
                    number: answer.number,
                    place: answer.place,
                    values: vec![
                        answer.price,
                        answer.price_error,
                        answer.spot_mean,
                        answer.spot_error,
                    ],
                    counts: vec![answer.paths, answer.non_positive, answer.steps],
                    tables: vec![table],
                    ..Default::default()
                }
            }
            Case::Vix {
                model,
                window,
                given,
                workspace,
            } => {
                let lent = lent(1, *workspace);
                let answer = calls::vix(
                    &model.weights,
                    &model.discounts,
                    &model.inputs,
                    *window,
                    given,
                    &lent,
                );
                Outcome {
                    number: answer.number,
                    place: answer.place,
                    values: vec![answer.squared, answer.index],
                    workspace: lent,
                    workspace_free: self.passes_16(),
                    ..Default::default()
                }
            }
            Case::VixBatch {
                model,
                schedule,
                window,
                payoff,
                paths,
                draws,
                workspace,
                observations,
            } => {
                let space = lent(1, *workspace);
                let mut table = lent(2, *observations);
                let answer = calls::vix_batch(
                    &model.weights,
                    &model.discounts,
                    &model.inputs,
                    schedule,
                    *window,
                    payoff,
                    *paths,
                    draws,
                    &space,
                    &mut table,
                );
                Outcome {
                    number: answer.number,
                    place: answer.place,
                    values: vec![
                        answer.payoff,
                        answer.payoff_error,
                        answer.index,
                        answer.index_error,
                    ],
                    counts: vec![answer.paths, answer.steps],
                    tables: vec![table],
                    workspace: space,
                    workspace_free: self.passes_16(),
                }
            }
            Case::Exponential {
                dimension,
                input,
                output,
                workspace,
            } => {
                let mut table = lent(1, *output);
                let space = lent(2, *workspace);
                let answer = calls::exponential(*dimension, input, &mut table, &space);
                Outcome {
                    number: answer.number,
                    place: answer.place,
                    counts: vec![answer.squarings],
                    tables: vec![table],
                    workspace: space,
                    workspace_free: self.passes_16(),
                    ..Default::default()
                }
            }
        }
    }

    /// Whether a call with a workspace passes the questions up to 16.
    #[must_use]
    pub fn passes_16(&self) -> bool {
        match self {
            Case::Vix {
                model,
                window,
                workspace,
                ..
            } => questions::vix_before_17(
                &model.weights,
                &model.discounts,
                &model.inputs,
                *window,
                *workspace,
            )
            .is_ok(),
            Case::VixBatch {
                model,
                schedule,
                window,
                workspace,
                ..
            } => questions::vix_batch_before_17(
                &model.weights,
                &model.discounts,
                &model.inputs,
                schedule,
                *window,
                *workspace,
            )
            .is_ok(),
            Case::Exponential {
                dimension,
                input,
                output,
                workspace,
            } => questions::matrix(*dimension, input.len(), *output, *workspace).is_ok(),
            _ => false,
        }
    }

    /// Whether the case has a norm outside the comparison with the Rust's number of squarings. It
    /// is still compared, with the least number.
    #[must_use]
    pub fn excluded(&self) -> bool {
        if !self.passes_16() {
            return false;
        }
        questions::excluded_norm(match self {
            Case::Vix { model, window, .. } | Case::VixBatch { model, window, .. } => {
                calls::vix_norm(&model.weights, &model.discounts, &model.inputs, *window)
            }
            Case::Exponential {
                dimension, input, ..
            } => calls::matrix_norm(*dimension, input),
            _ => return false,
        })
    }
}
