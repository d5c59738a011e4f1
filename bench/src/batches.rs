//! The batches of paths.

use crate::down_and_out::price_down_and_out;
use crate::inputs::{Draws, dec, model, to_params, to_positive, to_schedule, window};
use crate::optionstratlib::error::QuadraticRoughHestonError;
use crate::optionstratlib::quadratic_rough_heston::price_vanilla_quadratic_rough_heston;
use crate::optionstratlib::quadratic_rough_heston_vix::{
    QuadraticRoughHestonVix, QuadraticRoughHestonVixPayoff, price_vix_quadratic_rough_heston,
    squarings_by_log2,
};
use crate::optionstratlib::stand_in::OptionStyle;
use crate::table::Table;
use crate::{FACTORS, STEPS};
use qrh::{DownAndOut, Model, Refusal, Schedule, Vanilla, VixPayoff, workspace_length};
use std::num::NonZeroUsize;

const PATHS: usize = 4096;

/// What both sides are given.
struct Batch<'a> {
    model: Model,
    schedule: Schedule,
    draws: &'a [f64],
}

/// Segments of the same length, of so many steps in all.
fn even(segments: usize, steps: usize) -> Schedule {
    (0..segments)
        .map(|_| (dec("0.001"), (steps / segments) as u32))
        .collect()
}

impl<'a> Batch<'a> {
    /// So many paths of the sample with n factors, over one segment.
    fn new(n: usize, paths: usize, steps: usize, draws: &'a [f64]) -> Self {
        Self {
            model: model(n),
            schedule: even(1, steps),
            draws: &draws[..paths * steps],
        }
    }

    fn lists(&self) -> std::slice::ChunksExact<'a, f64> {
        self.draws.chunks_exact(self.schedule.steps() as usize)
    }

    fn paths(&self) -> NonZeroUsize {
        NonZeroUsize::new(self.lists().len()).expect("some paths")
    }

    fn observations(&self) -> Vec<f64> {
        vec![0.0; self.paths().get() * self.schedule.segments.len()]
    }

    /// Mirrored, it takes the first half of the draws.
    fn vanilla(&self, table: &mut Table, name: impl Into<String>, mirrored: bool) {
        let paths = self.paths();
        let half = &self.draws[..self.draws.len() / 2];
        let lists: Vec<Vec<f64>> = if mirrored {
            let pairs = self.lists().take(paths.get() / 2);
            pairs
                .flat_map(|list| [list.to_vec(), list.iter().map(|draw| -draw).collect()])
                .collect()
        } else {
            self.lists().map(<[f64]>::to_vec).collect()
        };
        let (params, schedule) = (to_params(&self.model), to_schedule(&self.schedule));
        let call = Vanilla::call(dec("100"));
        let mut observations = self.observations();
        table.compare(
            name,
            "a step",
            self.draws.len(),
            |out| {
                let strike = to_positive(call.strike);
                let style = OptionStyle::Call;
                match price_vanilla_quadratic_rough_heston(
                    &params, &schedule, style, strike, mirrored, paths, &lists,
                ) {
                    Ok(price) => out.extend([
                        price.price,
                        price.standard_error,
                        price.mean_terminal_spot,
                        price.terminal_spot_standard_error,
                    ]),
                    Err(QuadraticRoughHestonError::NonFinite { step, .. }) => out.push(step as f64),
                    Err(other) => panic!("{other:?}"),
                }
            },
            |out| {
                let price = if mirrored {
                    qrh::mirrored(
                        &self.model,
                        &self.schedule,
                        &call,
                        paths.get(),
                        half,
                        &mut observations,
                    )
                } else {
                    qrh::vanilla(
                        &self.model,
                        &self.schedule,
                        &call,
                        paths.get(),
                        self.draws,
                        &mut observations,
                    )
                };
                match price {
                    Ok(price) => out.extend([
                        price.price,
                        price.price_error,
                        price.spot_mean,
                        price.spot_error,
                    ]),
                    Err(Refusal::NonFinite { step, .. }) => out.push(step as f64),
                    Err(other) => panic!("{other}"),
                }
            },
        );
    }

    /// About half of the paths touch the barrier.
    fn down_and_out(&self, table: &mut Table, name: impl Into<String>) {
        let paths = self.paths();
        let lists: Vec<Vec<f64>> = self.lists().map(<[f64]>::to_vec).collect();
        let (params, schedule) = (to_params(&self.model), to_schedule(&self.schedule));
        let put = DownAndOut {
            strike: dec("100"),
            barrier: dec("95"),
        };
        let mut observations = self.observations();
        table.compare(
            name,
            "a step",
            self.draws.len(),
            |out| {
                let (strike, barrier) = (to_positive(put.strike), to_positive(put.barrier));
                let price =
                    price_down_and_out(&params, &schedule, strike, barrier, false, paths, &lists)
                        .expect("a price");
                out.extend([
                    price.price,
                    price.standard_error,
                    price.mean_terminal_spot,
                    price.terminal_spot_standard_error,
                ]);
            },
            |out| {
                let price = qrh::down_and_out(
                    &self.model,
                    &self.schedule,
                    &put,
                    paths.get(),
                    self.draws,
                    &mut observations,
                )
                .expect("a price");
                out.extend([
                    price.price,
                    price.price_error,
                    price.spot_mean,
                    price.spot_error,
                ]);
            },
        );
    }

    fn vix(&self, table: &mut Table, name: impl Into<String>) {
        let paths = self.paths();
        let lists: Vec<Vec<f64>> = self.lists().map(<[f64]>::to_vec).collect();
        let (params, schedule) = (to_params(&self.model), to_schedule(&self.schedule));
        let mut observations = self.observations();
        let mut workspace = vec![0.0; workspace_length(self.model.weights.len())];
        table.compare(
            name,
            "a step",
            self.draws.len(),
            |out| {
                let vix = QuadraticRoughHestonVix::try_new(
                    &params,
                    to_positive(window()),
                    squarings_by_log2,
                );
                let vix = vix.expect("finite moments");
                let future = QuadraticRoughHestonVixPayoff::Future;
                let price = price_vix_quadratic_rough_heston(
                    &params, &schedule, &vix, future, paths, &lists,
                )
                .expect("a price");
                out.extend([
                    price.price,
                    price.standard_error,
                    price.future,
                    price.future_standard_error,
                ]);
            },
            |out| {
                let price = qrh::vix_batch(
                    &self.model,
                    &self.schedule,
                    window(),
                    &VixPayoff::Future,
                    paths.get(),
                    self.draws,
                    &mut workspace,
                    &mut observations,
                )
                .expect("a price");
                out.extend([
                    price.payoff,
                    price.payoff_error,
                    price.index,
                    price.index_error,
                ]);
            },
        );
    }
}

pub fn batches(table: &mut Table) {
    let mut draws = Draws::new(4).normals(PATHS * STEPS);
    for n in FACTORS {
        let batch = Batch::new(n, PATHS, STEPS, &draws);
        batch.vanilla(table, format!("vanilla batch, n = {n}"), false);
        batch.vanilla(table, format!("mirrored batch, n = {n}"), true);
        batch.down_and_out(table, format!("down-and-out batch, n = {n}"));
        batch.vix(table, format!("VIX batch, n = {n}"));
    }
    for segments in [12, 63] {
        let batch = Batch {
            schedule: even(segments, STEPS),
            ..Batch::new(10, PATHS, STEPS, &draws)
        };
        batch.vanilla(table, format!("vanilla batch, {segments} segments"), false);
        batch.vix(table, format!("VIX batch, {segments} segments"));
    }
    for steps in [4, 16] {
        Batch::new(10, PATHS, steps, &draws).vanilla(
            table,
            format!("vanilla batch, {steps} steps"),
            false,
        );
    }
    for paths in [3, 6] {
        Batch::new(10, paths, STEPS, &draws).vanilla(
            table,
            format!("vanilla batch, {paths} paths"),
            false,
        );
    }
    guesses(table, &draws);
    // The very last step is the first that is not finite.
    draws[PATHS * STEPS - 1] = f64::INFINITY;
    Batch::new(10, PATHS, STEPS, &draws).vanilla(
        table,
        "vanilla batch, stops at its last step",
        false,
    );
}

/// Batches whose variances have roots that are guessed right, and batches where a guess is wrong
/// (`near_root` of the crate numeric; oracle/src/guess.rs finds such numbers), so that four paths
/// side by side are walked again one by one.
fn guesses(table: &mut Table, draws: &[f64]) {
    // With a = 0 every variance is c.
    for (name, c) in [
        ("roots guessed right", "0.007283343"),
        ("first root guessed wrong", "0.007283342"),
    ] {
        let mut batch = Batch::new(10, PATHS, STEPS, draws);
        (batch.model.a, batch.model.c) = (dec("0"), dec(c));
        batch.vanilla(table, format!("vanilla batch, {name}"), false);
    }
    // In one path of four the last root but no other is guessed wrong: that of a number just above
    // 0.0625.
    let mut late = vec![0.0; PATHS * STEPS];
    late.chunks_exact_mut(STEPS)
        .step_by(4)
        .for_each(|list| list[STEPS - 2] = 0.00001);
    let mut batch = Batch::new(10, PATHS, STEPS, &late);
    (batch.model.b, batch.model.c) = (dec("0"), dec("0.0625"));
    batch.model.factors = vec![dec("0"); 10];
    batch.vanilla(table, "vanilla batch, last root guessed wrong", false);
}
