//! Batches of several groups of four paths. In chosen paths, at chosen steps, something happens
//! that a walk of four paths side by side could get wrong.

use super::barriers::Paths;
use super::{Source, WILD, decimal};
use crate::cases::{Case, Model};
use crate::edge::{self, Decimal, Schedule, Segment, VixPayoff};
use crate::guess;
use crate::questions::dimension;

struct Batch {
    mirrored: bool,
    model: Model,
    schedule: Schedule,
    window: Decimal,
    paths: usize,
    draws: Vec<f64>,
}

impl Batch {
    fn total(&self) -> usize {
        Source::total(&self.schedule)
    }

    fn walked(&self) -> Paths<'_> {
        Paths {
            mirrored: self.mirrored,
            model: &self.model,
            schedule: &self.schedule,
            paths: self.paths,
            draws: &self.draws,
        }
    }

    /// The draws of a path, from 0. In a mirrored batch the second path of a pair has them negated.
    fn list(&mut self, path: usize) -> &mut [f64] {
        let total = self.total();
        let list = if self.mirrored { path / 2 } else { path };
        &mut self.draws[list * total..][..total]
    }

    /// Gives a path a draw at a step, both from 0.
    fn set(&mut self, path: usize, step: usize, draw: f64) {
        let negated = self.mirrored && path % 2 == 1;
        self.list(path)[step] = if negated { -draw } else { draw };
    }
}

impl Source {
    pub(super) fn vanilla_of_fours(&mut self, mirrored: bool, barred: bool) -> Case {
        let n = 1 + self.below(10) as usize;
        let batch = self.fours(n, mirrored);
        Case::Vanilla {
            mirrored,
            terms: if barred {
                self.down_and_out(&batch.walked())
            } else {
                self.vanilla_terms()
            },
            observations: batch.paths * batch.schedule.count,
            model: batch.model,
            schedule: batch.schedule,
            paths: batch.paths,
            draws: batch.draws,
        }
    }

    pub(super) fn vix_batch_of_fours(&mut self) -> Case {
        // The exponential of many factors takes long.
        let n = if self.one_in(3) {
            5 + self.below(6)
        } else {
            1 + self.below(4)
        } as usize;
        let batch = self.fours(n, false);
        Case::VixBatch {
            payoff: VixPayoff {
                future: self.one_in(3),
                put: self.flip(),
                strike: self.close(40.0),
            },
            workspace: 5 * dimension(n) * dimension(n),
            observations: batch.paths * batch.schedule.count,
            model: batch.model,
            schedule: batch.schedule,
            window: batch.window,
            paths: batch.paths,
            draws: batch.draws,
        }
    }

    fn fours(&mut self, n: usize, mirrored: bool) -> Batch {
        let schedule = self.short_schedule();
        let paths = match self.below(3) {
            0 => 2 + self.below(8),
            1 => 10 + self.below(11),
            _ => 10 + self.below(31),
        } as usize;
        let paths = if mirrored {
            (paths + paths % 2).max(4)
        } else {
            paths
        };
        let lists = if mirrored { paths / 2 } else { paths };
        let draws = lists * Self::total(&schedule);
        let mut batch = Batch {
            mirrored,
            model: self.calm(n),
            schedule,
            window: self.close(0.08),
            paths,
            draws: (0..draws).map(|_| self.normal()).collect(),
        };
        match self.below(12) {
            0 => {}
            1..=3 => self.stop(&mut batch),
            4 => self.grow(&mut batch),
            5 | 6 => self.fall(&mut batch),
            7 | 8 => self.outlive(&mut batch),
            9 => self.tower(&mut batch),
            10 => self.guess_wrong_at_once(&mut batch),
            _ => self.guess_wrong_later(&mut batch),
        }
        batch
    }

    /// A model whose paths stay finite for long.
    fn calm(&mut self, n: usize) -> Model {
        Model {
            weights: (0..n).map(|_| self.between(0.1, 0.8)).collect(),
            discounts: (0..n)
                .map(|i| self.between(0.1, 0.4) * 3.0_f64.powi(i as i32))
                .collect(),
            inputs: edge::Model {
                a: self.close(0.4),
                b: self.close(0.2),
                c: self.close(0.01),
                lambda: self.close(1.2),
                eta: self.close(0.8),
                spot: self.close(100.0),
                factor_count: n,
                factors: std::array::from_fn(|_| self.close(0.1)),
            },
        }
    }

    fn short_schedule(&mut self) -> Schedule {
        let mut schedule = Schedule {
            count: self.pick(&[1, 1, 1, 2, 2, 3, 3, 4, 5, 12, 63, 64]),
            ..Default::default()
        };
        let most = if schedule.count < 12 { 8 } else { 2 };
        for segment in &mut schedule.segments[..schedule.count] {
            *segment = Segment {
                dt: self.close(0.02),
                steps: 1 + self.below(most) as u32,
            };
        }
        schedule
    }

    /// A path, from 0: of the first, the middle or the last group of four, or of those left over.
    pub(super) fn member(&mut self, paths: usize) -> usize {
        let groups = paths / 4;
        let group = self.pick(&[0, groups / 2, groups.saturating_sub(1), groups]);
        (4 * group + self.below(4) as usize).min(paths - 1)
    }

    /// Two paths, mostly of the same four, that stop.
    fn stop(&mut self, batch: &mut Batch) {
        let path = self.member(batch.paths);
        let near = (path / 4 * 4 + self.below(4) as usize).min(batch.paths - 1);
        for path in [path, near] {
            let step = self.place(&batch.schedule, batch.total());
            // The first nine stop any path of a calm model.
            let draw = self.pick(&WILD[..9]);
            batch.set(path, step, draw);
        }
    }

    /// A path whose variance grows by usual draws until it is not finite; all other draws are tiny.
    fn grow(&mut self, batch: &mut Batch) {
        batch.model.inputs.a = self.close(1.0);
        batch.model.inputs.eta = self.close(1e15);
        // The moments stay finite.
        batch.window = decimal(false, 1, 28);
        batch.draws.iter_mut().for_each(|draw| *draw *= 1e-16);
        let path = self.member(batch.paths);
        let step = self.below(3).min(batch.total() as u64 - 1) as usize;
        let grown = &mut batch.list(path)[step..];
        grown.iter_mut().for_each(|draw| *draw *= 1e16);
    }

    /// Lets the spot move by spot × draw: the root of the variance is 2, that of dt a half. Draws
    /// are below one.
    fn move_by_draws(&mut self, batch: &mut Batch) {
        batch.model.inputs.a = self.zero();
        batch.model.inputs.c = decimal(false, 4, 0);
        for segment in &mut batch.schedule.segments {
            segment.dt = decimal(false, 25, 2);
        }
        batch.draws.iter_mut().for_each(|draw| *draw *= 0.1);
    }

    /// Paths whose spot is zero or below at a step, among others where it is not.
    fn fall(&mut self, batch: &mut Batch) {
        self.move_by_draws(batch);
        for _ in 0..1 + self.below(3) {
            let path = self.member(batch.paths);
            let step = self.place(&batch.schedule, batch.total());
            let draw = self.pick(&[-1.0, -1.0, -1.5, -2.0]);
            batch.set(path, step, draw);
        }
    }

    /// A path whose spot is zero, so that it goes on at a draw where others stop: the second of a
    /// mirrored pair does.
    fn outlive(&mut self, batch: &mut Batch) {
        self.move_by_draws(batch);
        batch.model.inputs.eta = decimal(false, 1, 3);
        let path = self.member(batch.paths) & !usize::from(batch.mirrored);
        let step = self.place(&batch.schedule, batch.total());
        if step > 0 {
            batch.set(path, self.below(step as u64) as usize, -1.0);
            batch.set(path, step, 1e308);
        }
    }

    /// A path that goes on with a variance up to the largest double.
    fn tower(&mut self, batch: &mut Batch) {
        let path = self.member(batch.paths);
        let step = self.place(&batch.schedule, batch.total());
        let list = batch.list(path);
        list[step..].fill(0.0);
        list[step] = self.spread(480, 522);
    }

    /// The first variance is c, with z at b.
    fn start_at_c(&mut self, batch: &mut Batch, c: Decimal) {
        let inputs = &mut batch.model.inputs;
        inputs.b = self.zero();
        inputs.c = c;
        inputs.factors = [self.zero(); 10];
    }

    /// The root of the first variance, or of every one, is guessed wrong.
    fn guess_wrong_at_once(&mut self, batch: &mut Batch) {
        let c = decimal(false, self.pick(&guess::WRONG).into(), 9);
        self.start_at_c(batch, c);
        if self.flip() {
            batch.model.inputs.a = self.zero();
        }
        if self.flip() {
            self.stop(batch);
        }
    }

    /// In each path the variance is a power of four up to a step, and then just above it, where one
    /// root in five is guessed wrong.
    fn guess_wrong_later(&mut self, batch: &mut Batch) {
        let power = self.below(8) as u32;
        let c = decimal(false, 25_u128.pow(power), 2 * power as u8);
        self.start_at_c(batch, c);
        let total = batch.total();
        for list in batch.draws.chunks_exact_mut(total) {
            let step = self.place(&batch.schedule, total);
            list[..step].fill(0.0);
            list[step] *= 1e-5;
        }
    }
}
