//! Cases from fixed seeds: typical, boundary and damaged inputs, and several refusals at once. The
//! case with a given seed, call and index is always the same.

mod barriers;
mod fours;

use crate::cases::{Case, Model, Terms};
use crate::edge::{self, Decimal, Factors, Schedule, Segment, VixPayoff};
use crate::questions::dimension;
use barriers::Paths;

/// How large cases may become.
#[derive(Debug, Clone, Copy)]
pub struct Size {
    /// Whether a case in some hundreds has 4,096 steps, 65,536 paths or dimension 67, and every
    /// second batch several groups of four paths.
    pub large: bool,
    /// Steps of an ordinary schedule of one to three segments.
    pub steps: u64,
    /// Paths of an ordinary batch.
    pub paths: u64,
}

/// For a comparison in one process.
pub const WIDE: Size = Size {
    large: true,
    steps: 40,
    paths: 9,
};

/// For a recorded list.
pub const SMALL: Size = Size {
    large: false,
    steps: 8,
    paths: 4,
};

/// The case of a seed, a call (its place in `CALLS`) and an index.
#[must_use]
pub fn case(seed: u64, call: usize, index: u64, size: Size) -> Case {
    let mut source = Source(seed ^ (call as u64) << 56);
    let start = source.next() ^ index.wrapping_mul(0x2545_F491_4F6C_DD1D);
    let mut source = Source(start);
    let fours = size.large && index % 2 == 1;
    match call {
        0 => Case::Convert(source.decimal()),
        1 => Case::Sqrt(source.radicand()),
        2 => source.trace(size),
        3 | 4 if fours => source.vanilla_of_fours(call == 4, false),
        3 | 4 => source.vanilla(size, call == 4, false),
        5 => source.vix(size),
        6 if fours => source.vix_batch_of_fours(),
        6 => source.vix_batch(size),
        7 => source.exponential(size),
        8 | 9 if fours => source.vanilla_of_fours(call == 9, true),
        8 | 9 => source.vanilla(size, call == 9, true),
        _ => panic!("no such call"),
    }
}

/// A Decimal from its parts.
#[must_use]
pub fn decimal(negative: bool, coefficient: u128, scale: u8) -> Decimal {
    Decimal {
        low: coefficient as u64,
        high: (coefficient >> 64) as u32,
        scale,
        negative,
    }
}

fn pow2(exponent: i32) -> f64 {
    2.0_f64.powi(exponent)
}

const LOW: i32 = -90;
const HIGH: i32 = 90;
const MAX: u128 = (1 << 96) - 1;

/// Draws that make a path stop, or nearly.
const WILD: [f64; 20] = [
    f64::NAN,
    f64::INFINITY,
    f64::NEG_INFINITY,
    f64::MAX,
    -f64::MAX,
    1e300,
    -1e300,
    1e200,
    -1e200,
    1e155,
    -1e155,
    1e100,
    -1e100,
    5e-324,
    -5e-324,
    1e-310,
    0.0,
    -0.0,
    40.0,
    -40.0,
];

/// The Decimal of about `value`, of `places` places.
fn rounded(value: f64, places: u8) -> Decimal {
    let scaled = value.abs() * 10_f64.powi(i32::from(places));
    let coefficient = if scaled < 7e28 { scaled as u128 } else { MAX };
    decimal(value < 0.0, coefficient, places)
}

/// A small generator of bits, splitmix64.
struct Source(u64);

impl Source {
    fn next(&mut self) -> u64 {
        self.0 = self.0.wrapping_add(0x9E37_79B9_7F4A_7C15);
        let mut z = self.0;
        z = (z ^ (z >> 30)).wrapping_mul(0xBF58_476D_1CE4_E5B9);
        z = (z ^ (z >> 27)).wrapping_mul(0x94D0_49BB_1331_11EB);
        z ^ (z >> 31)
    }

    fn below(&mut self, bound: u64) -> u64 {
        self.next() % bound
    }

    /// True once in `n` times.
    fn one_in(&mut self, n: u64) -> bool {
        self.below(n) == 0
    }

    fn flip(&mut self) -> bool {
        self.one_in(2)
    }

    fn pick<T: Copy>(&mut self, list: &[T]) -> T {
        list[self.below(list.len() as u64) as usize]
    }

    /// From 0 to below 1.
    fn unit(&mut self) -> f64 {
        (self.next() >> 11) as f64 * pow2(-53)
    }

    fn between(&mut self, low: f64, high: f64) -> f64 {
        low + (high - low) * self.unit()
    }

    /// About normal.
    fn normal(&mut self) -> f64 {
        (0..12).map(|_| self.unit()).sum::<f64>() - 6.0
    }

    /// A double of a random exponent.
    fn spread(&mut self, low: i32, high: i32) -> f64 {
        let exponent = low + self.below((high - low) as u64) as i32;
        (1.0 + self.unit()) * pow2(exponent)
    }

    // Decimals.

    fn coefficient(&mut self) -> u128 {
        let whole = (u128::from(self.next()) << 64 | u128::from(self.next())) & MAX;
        whole >> self.below(96)
    }

    fn over_scaled(&mut self) -> u8 {
        self.pick(&[29, 29, 30, 31, 56, 57, 64, 128, 254, 255])
    }

    fn zero(&mut self) -> Decimal {
        let scale = self.pick(&[0, 0, 1, 28, 29, 255]);
        let negative = self.flip();
        decimal(negative, 0, scale)
    }

    /// Halfway between two doubles: an odd number of 54 bits, times 2^k, over 10^scale × 5^-scale.
    fn tie(&mut self) -> (u128, u8) {
        let odd = u128::from(self.next() >> 10 | 1 << 53 | 1);
        let scale = self.below(19) as u8;
        let coefficient = odd * 5_u128.pow(u32::from(scale));
        let free = coefficient.leading_zeros().saturating_sub(32);
        let shift = if free == 0 {
            0
        } else {
            self.below(u64::from(free))
        };
        (coefficient << shift & MAX, scale)
    }

    /// Any Decimal.
    fn decimal(&mut self) -> Decimal {
        let negative = self.flip();
        let scale = self.below(29) as u8;
        let (coefficient, scale) = match self.below(12) {
            0 => return self.zero(),
            1 => (u128::from(self.below(1000)), self.below(4) as u8),
            2 => (self.coefficient(), self.over_scaled()),
            3 => (u128::from(self.below(3)), self.pick(&[27, 28, 29, 30])),
            4 | 5 => self.tie(),
            6 => {
                // Next to a tie.
                let (coefficient, scale) = self.tie();
                let places = self.below(8) as u32;
                match coefficient.checked_mul(10_u128.pow(places)) {
                    Some(longer) if longer < MAX => {
                        let near = if self.flip() { longer + 1 } else { longer - 1 };
                        (near, scale + places as u8)
                    }
                    _ => (coefficient, scale),
                }
            }
            7 => {
                let power = 10_u128.pow(self.below(29) as u32);
                (power - 1 + u128::from(self.below(3)), scale)
            }
            8 => {
                let power = 1_u128 << self.below(96);
                (power - 1 + u128::from(self.below(3)), scale)
            }
            9 => (MAX - u128::from(self.below(3)), scale),
            10 => {
                // Next to 2^53 and the places around it, where whole numbers begin to be rounded.
                let power = 1_u128 << (52 + self.below(4));
                (power + u128::from(self.below(9)), scale % 3)
            }
            _ => (self.coefficient(), scale),
        };
        decimal(negative, coefficient & MAX, scale)
    }

    /// A positive Decimal around `value`, or, once in a while, of any size.
    fn around(&mut self, value: f64) -> Decimal {
        if self.one_in(24) {
            let coefficient = self.coefficient().max(1);
            return decimal(false, coefficient, self.below(29) as u8);
        }
        self.close(value)
    }

    /// A positive Decimal around `value`.
    fn close(&mut self, value: f64) -> Decimal {
        let places = 4 + self.below(12) as u8;
        let near = value * self.between(0.5, 1.5);
        let d = rounded(near, places);
        if d.low == 0 && d.high == 0 {
            decimal(false, 1, places)
        } else {
            d
        }
    }

    fn signed(&mut self, value: f64) -> Decimal {
        if self.one_in(6) {
            return self.zero();
        }
        let d = self.around(value);
        decimal(
            self.flip(),
            u128::from(d.high) << 64 | u128::from(d.low),
            d.scale,
        )
    }

    // Models.

    fn entry(&mut self, wild: bool, typical: f64) -> f64 {
        match self.below(if wild { 4 } else { 12 }) {
            0 if wild => self.pick(&[pow2(LOW), pow2(HIGH)]),
            1 if wild => self.spread(LOW, HIGH),
            2 => self.pick(&[1.0, 0.5, 2.0, 4.0]),
            _ => typical * self.between(0.2, 2.0),
        }
    }

    fn count(&mut self, size: Size) -> usize {
        let most = if size.large { 10 } else { 5 };
        match self.below(8) {
            0 | 1 => 1,
            2 => 2,
            3 if self.flip() => 10,
            _ => 1 + self.below(most) as usize,
        }
    }

    /// The model of the checked figures.
    fn figures(&mut self) -> Model {
        let whole = |value| decimal(false, value, 0);
        let mut inputs = edge::Model {
            a: whole(1),
            b: whole(0),
            c: whole(4),
            lambda: whole(1),
            eta: whole(1),
            spot: whole(100),
            factor_count: 1,
            ..Default::default()
        };
        if self.flip() {
            inputs.factors[0] = self.signed(0.5);
        }
        Model {
            weights: vec![1.0],
            discounts: vec![4.0],
            inputs,
        }
    }

    fn model(&mut self, n: usize) -> Model {
        let wild = self.one_in(6);
        let any = self.one_in(8);
        let weights = (0..n).map(|_| self.entry(wild, 0.4)).collect();
        let discounts = (0..n)
            .map(|i| self.entry(wild, 0.2 * 3.0_f64.powi(i as i32)))
            .collect();
        let mut inputs = edge::Model {
            a: if self.one_in(8) {
                self.zero()
            } else {
                self.around(0.4)
            },
            b: self.signed(0.2),
            c: self.around(0.01),
            lambda: self.around(1.2),
            eta: self.around(0.8),
            spot: self.around(100.0),
            factor_count: n,
            ..Default::default()
        };
        for i in 0..10 {
            // What lies past the count is never read.
            inputs.factors[i] = if i >= n {
                self.decimal()
            } else {
                self.signed(0.1)
            };
        }
        if any {
            for d in [
                &mut inputs.a,
                &mut inputs.c,
                &mut inputs.lambda,
                &mut inputs.eta,
                &mut inputs.spot,
            ] {
                if self.flip() {
                    *d = decimal(false, self.coefficient().max(1), self.below(29) as u8);
                }
            }
        }
        Model {
            weights,
            discounts,
            inputs,
        }
    }

    fn damage_model(&mut self, model: &mut Model) {
        let bad = |source: &mut Self| {
            source.pick(&[
                pow2(LOW).next_down(),
                pow2(HIGH).next_up(),
                0.0,
                -0.0,
                -1.0,
                5e-324,
                1e300,
                f64::NAN,
                f64::INFINITY,
                f64::NEG_INFINITY,
            ])
        };
        let not_above = |source: &mut Self| {
            if source.flip() {
                source.zero()
            } else {
                decimal(true, source.coefficient().max(1), source.below(40) as u8)
            }
        };
        let inputs = &mut model.inputs;
        match self.below(16) {
            0 => model.weights.resize(self.pick(&[0, 11, 12]), 1.0),
            1 => {
                let n = model.discounts.len();
                let wrong = self.pick(&[0, n.saturating_sub(1), n.wrapping_add(1), 11]);
                model.discounts.resize(wrong, 1.0);
            }
            2 | 3 if !model.weights.is_empty() => {
                let i = self.below(model.weights.len() as u64) as usize;
                model.weights[i] = bad(self);
            }
            4 if !model.discounts.is_empty() => {
                let i = self.below(model.discounts.len() as u64) as usize;
                model.discounts[i] = bad(self);
            }
            5 => inputs.a = decimal(true, self.coefficient(), self.below(40) as u8),
            6 => inputs.c = not_above(self),
            7 => inputs.lambda = not_above(self),
            8 => inputs.eta = not_above(self),
            9 => inputs.spot = not_above(self),
            10 => {
                let n = inputs.factor_count;
                inputs.factor_count = self.pick(&[
                    0,
                    n.saturating_sub(1),
                    n.wrapping_add(1),
                    10,
                    11,
                    usize::MAX,
                ]);
            }
            11 => {
                let i = self.below(10) as usize;
                inputs.factors[i].scale = self.over_scaled();
            }
            _ => {
                let scale = self.over_scaled();
                let d = match self.below(6) {
                    0 => &mut inputs.a,
                    1 => &mut inputs.b,
                    2 => &mut inputs.c,
                    3 => &mut inputs.lambda,
                    4 => &mut inputs.eta,
                    _ => &mut inputs.spot,
                };
                d.scale = scale;
            }
        }
    }

    // Schedules.

    fn dt(&mut self) -> Decimal {
        let typical = self.pick(&[0.25, 0.004, 0.02, 1.0]);
        match self.below(6) {
            0 => decimal(false, 25, 2),
            1 => decimal(false, 250, 3),
            _ => self.around(typical),
        }
    }

    fn schedule(&mut self, size: Size) -> Schedule {
        let mut schedule = Schedule::default();
        for segment in &mut schedule.segments {
            // What lies past the count is never read.
            *segment = Segment {
                dt: self.decimal(),
                steps: self.next() as u32,
            };
        }
        let (count, steps) = if size.large && self.one_in(300) {
            // 4,096 steps, in one segment or in 64.
            if self.flip() { (1, 4096) } else { (64, 64) }
        } else if self.one_in(20) {
            (64, 1)
        } else {
            let count = 1 + self.below(4);
            (count, 0)
        };
        schedule.count = count as usize;
        for segment in &mut schedule.segments[..count as usize] {
            segment.dt = self.dt();
            segment.steps = if steps > 0 {
                steps
            } else if self.one_in(3) {
                1
            } else {
                1 + self.below((size.steps / count).max(1)) as u32
            };
        }
        schedule
    }

    fn damage_schedule(&mut self, schedule: &mut Schedule) {
        let i = self.below(schedule.count.clamp(1, 64) as u64) as usize;
        let total: u32 = schedule.segments[..schedule.count.min(64)]
            .iter()
            .fold(0, |sum: u32, segment| sum.saturating_add(segment.steps));
        match self.below(9) {
            0 => schedule.count = 0,
            1 => schedule.count = self.pick(&[65, 66, 1000, usize::MAX]),
            2 => schedule.segments[i].dt = self.zero(),
            3 => schedule.segments[i].dt.negative = true,
            4 => schedule.segments[i].steps = 0,
            5 => schedule.segments[i].steps = self.pick(&[4097, 65_536, u32::MAX, u32::MAX - 1]),
            6 => {
                // One step too many in all, or exactly enough.
                let most = 4096 + self.below(2) as u32;
                let steps = &mut schedule.segments[i].steps;
                *steps = steps.saturating_add(most.saturating_sub(total));
            }
            7 => {
                // Counts that would wrap.
                for segment in &mut schedule.segments {
                    segment.steps = u32::MAX;
                }
            }
            _ => schedule.segments[i].dt.scale = self.over_scaled(),
        }
    }

    fn total(schedule: &Schedule) -> usize {
        schedule.segments[..schedule.count]
            .iter()
            .map(|segment| segment.steps as usize)
            .sum()
    }

    // Draws.

    /// Draws of `lists` paths of the schedule; some stop a path at a chosen step.
    fn draws(&mut self, schedule: &Schedule, lists: usize) -> Vec<f64> {
        let total = Self::total(schedule);
        let mut draws: Vec<f64> = match self.below(20) {
            0 => (0..lists * total)
                .map(|_| f64::from_bits(self.next()))
                .collect(),
            1 => (0..lists * total).map(|_| self.pick(&WILD)).collect(),
            2 => vec![0.0; lists * total],
            3 => {
                let figures = [0.5, -1.0, 1.0, -2.0, 0.0, -0.0];
                (0..lists * total).map(|_| self.pick(&figures)).collect()
            }
            4 | 5 => {
                let width = self.pick(&[4.0, 20.0, 1e3]);
                (0..lists * total).map(|_| width * self.normal()).collect()
            }
            _ => (0..lists * total).map(|_| self.normal()).collect(),
        };
        if self.one_in(3) {
            for _ in 0..1 + self.below(2) {
                let path = self.below(lists as u64) as usize;
                let step = self.place(schedule, total);
                draws[path * total + step] = if self.flip() {
                    self.pick(&WILD)
                } else {
                    let size = self.spread(300, 1023);
                    if self.flip() { size } else { -size }
                };
            }
        }
        draws
    }

    /// A step, from 0: the first, the last, any, or the first or the last of a segment.
    fn place(&mut self, schedule: &Schedule, total: usize) -> usize {
        match self.below(5) {
            0 => 0,
            1 => total - 1,
            2 => self.below(total as u64) as usize,
            k => {
                let segment = self.below(schedule.count as u64) as usize;
                let before: u32 = schedule.segments[..segment]
                    .iter()
                    .map(|segment| segment.steps)
                    .sum();
                let steps = schedule.segments[segment].steps;
                (before + if k == 3 { 0 } else { steps - 1 }) as usize
            }
        }
    }

    /// Puts the stop at z, or lets a path end at a huge spot, by the sizes of spot, eta and a.
    fn steer(&mut self, model: &mut Model, schedule: &Schedule, draws: &mut [f64]) {
        let total = Self::total(schedule);
        let inputs = &mut model.inputs;
        match self.below(16) {
            0 => {
                // spot small, eta large: the forcing overflows first.
                inputs.spot = decimal(false, 1 + u128::from(self.below(9)), 28);
                inputs.eta = decimal(false, MAX >> self.below(8), 0);
                let step = self.place(schedule, total);
                let at = self.below((draws.len() / total) as u64) as usize * total + step;
                draws[at] = self.pick(&[1e286, -1e290, 1e300]);
            }
            1 => {
                // eta small and a zero or small: the spot grows alone, at the last step.
                inputs.eta = decimal(false, 1, 28);
                inputs.a = decimal(false, u128::from(self.below(2)), 28);
                for path in draws.chunks_exact_mut(total) {
                    let size = self.pick(&[1e100, 1e150, 1e160, 1e250, 1e300]);
                    let sign = self.pick(&[1.0, 1.0, -1.0]);
                    path[total - 1] = sign * size * self.unit();
                }
            }
            _ => {}
        }
    }

    // Lengths.

    fn damage_length(&mut self, length: usize) -> usize {
        self.pick(&[
            0,
            1,
            length.saturating_sub(1),
            length + 1,
            2 * length,
            length / 2,
        ])
    }

    fn resize(&mut self, table: &mut Vec<f64>) {
        let length = self.damage_length(table.len());
        table.resize(length, 1.0);
    }

    /// How many damages a case takes.
    fn damages(&mut self) -> u64 {
        match self.below(20) {
            0..=10 => 0,
            11..=15 => 1,
            16..=17 => 2,
            _ => 3 + self.below(3),
        }
    }

    // Calls.

    /// Any double, squares and neighbours of squares, and halfway between roots.
    fn radicand(&mut self) -> f64 {
        let special = [
            0.0,
            -0.0,
            f64::INFINITY,
            f64::NEG_INFINITY,
            f64::NAN,
            1.0,
            2.0,
            3.0,
            4.0,
            -1.0,
            5e-324,
            1e-323,
            -5e-324,
            f64::MIN_POSITIVE,
            f64::MIN_POSITIVE.next_down(),
            f64::MAX,
            1.0_f64.next_up(),
            1.0_f64.next_down(),
            4.0_f64.next_down(),
        ];
        match self.below(10) {
            0 => f64::from_bits(self.next()),
            1 => f64::from_bits(self.next() >> (12 + self.below(52))),
            2 => self.pick(&special),
            3 => {
                // A square of few digits, exact.
                let root = (self.next() >> (38 + self.below(26))) as f64;
                root * root * pow2(2 * self.below(200) as i32 - 200)
            }
            4 | 5 => {
                // Next to the square of a double.
                let root = f64::from_bits(self.next() >> 12 | 1023 << 52);
                let square = root * root;
                self.near(square)
            }
            6 | 7 => {
                // Next to the square of a midpoint of two doubles.
                let odd = u128::from(self.next() >> 11 | 1 << 52) << 1 | 1;
                let square = odd * odd;
                let shift = 128 - square.leading_zeros() - 53;
                let kept = (square >> shift) as f64;
                self.near(kept)
            }
            8 => self.spread(-1022, 1023),
            _ => -self.spread(-1022, 1023),
        }
    }

    fn near(&mut self, value: f64) -> f64 {
        let scaled = value * pow2(self.below(800) as i32 - 400);
        match self.below(4) {
            0 => scaled.next_up(),
            1 => scaled.next_down(),
            _ => scaled,
        }
    }

    fn trace(&mut self, size: Size) -> Case {
        let n = self.count(size);
        let mut model = if self.one_in(6) {
            self.figures()
        } else {
            self.model(n)
        };
        let n = model.weights.len();
        let mut schedule = self.schedule(size);
        let mut draws = self.draws(&schedule, 1);
        self.steer(&mut model, &schedule, &mut draws);
        let points = Self::total(&schedule) + 1;
        let mut tables = [points, points, points, points * n];
        for _ in 0..self.damages() {
            match self.below(4) {
                0 => self.damage_model(&mut model),
                1 => self.damage_schedule(&mut schedule),
                2 => self.resize(&mut draws),
                _ => {
                    let t = self.below(4) as usize;
                    tables[t] = self.damage_length(tables[t]);
                }
            }
        }
        Case::Trace {
            model,
            schedule,
            draws,
            tables,
        }
    }

    fn strike(&mut self) -> Decimal {
        match self.below(8) {
            0 => self.zero(),
            1 => decimal(false, 100, 0),
            _ => self.around(100.0),
        }
    }

    fn damage_strike(&mut self, strike: &mut Decimal) {
        match self.below(3) {
            0 => strike.negative = true,
            1 => strike.scale = self.over_scaled(),
            _ => *strike = self.decimal(),
        }
    }

    fn paths(&mut self, size: Size, mirrored: bool) -> usize {
        let paths = match self.below(4) {
            0 => 2,
            _ => 2 + self.below(size.paths - 1) as usize,
        };
        if !mirrored {
            return paths;
        }
        // One pair alone is refused.
        let pairs = if self.one_in(8) { 1 } else { 1 + paths / 2 };
        2 * pairs
    }

    fn damage_paths(&mut self, paths: usize) -> usize {
        self.pick(&[
            0,
            1,
            3,
            paths.wrapping_add(1),
            65_536,
            65_537,
            65_538,
            usize::MAX,
            usize::MAX - 1,
        ])
    }

    fn vanilla_terms(&mut self) -> Terms {
        Terms::Vanilla {
            put: self.flip(),
            strike: self.strike(),
        }
    }

    fn damage_terms(&mut self, terms: &mut Terms) {
        match terms {
            Terms::Vanilla { strike, .. } => self.damage_strike(strike),
            Terms::DownAndOut { strike, barrier } => {
                let which = self.below(3);
                if which != 0 {
                    self.damage_strike(strike);
                }
                if which != 1 {
                    self.damage_barrier(barrier);
                }
            }
        }
    }

    fn vanilla(&mut self, size: Size, mirrored: bool, barred: bool) -> Case {
        let n = self.count(size);
        let mut model = if self.one_in(6) {
            self.figures()
        } else {
            self.model(n)
        };
        let mut schedule = self.schedule(size);
        let mut paths = self.paths(size, mirrored);
        if size.large && self.one_in(1000) {
            paths = 65_536;
            schedule.count = 1;
            schedule.segments[0] = Segment {
                dt: decimal(false, 1, 2),
                steps: 1,
            };
        }
        let lists = if mirrored { paths / 2 } else { paths };
        let mut draws = self.draws(&schedule, lists);
        self.steer(&mut model, &schedule, &mut draws);
        let mut terms = if barred {
            self.down_and_out(&Paths {
                mirrored,
                model: &model,
                schedule: &schedule,
                paths,
                draws: &draws,
            })
        } else {
            self.vanilla_terms()
        };
        let mut observations = paths * schedule.count;
        for _ in 0..self.damages() {
            match self.below(if barred { 8 } else { 6 }) {
                0 => self.damage_model(&mut model),
                1 => self.damage_schedule(&mut schedule),
                3 => paths = self.damage_paths(paths),
                4 => self.resize(&mut draws),
                5 => observations = self.damage_length(observations),
                _ => self.damage_terms(&mut terms),
            }
        }
        Case::Vanilla {
            mirrored,
            model,
            schedule,
            terms,
            paths,
            draws,
            observations,
        }
    }

    fn window(&mut self) -> Decimal {
        match self.below(8) {
            0 => decimal(false, 25, 2),
            1 => self.around(1.0),
            2 => decimal(false, 1, self.below(29) as u8),
            _ => self.around(0.0822),
        }
    }

    fn damage_window(&mut self, window: &mut Decimal) {
        match self.below(3) {
            0 => *window = self.zero(),
            1 => window.negative = true,
            _ => window.scale = self.over_scaled(),
        }
    }

    fn vix_model(&mut self, size: Size) -> Model {
        let n = if self.one_in(60) {
            5 + self.below(6) as usize
        } else {
            1 + self.below(if size.large { 4 } else { 3 }) as usize
        };
        let mut model = match self.below(12) {
            0 => {
                let mut model = self.figures();
                if self.flip() {
                    model.inputs.a = self.zero();
                }
                model
            }
            _ => self.model(n),
        };
        let inputs = &mut model.inputs;
        match self.below(10) {
            0 => {
                // The moments grow quickly.
                let eta = self.pick(&[30.0, 100.0, 200.0]);
                inputs.eta = self.around(eta);
                inputs.a = self.around(1.0);
            }
            1 => {
                // z cancels b, and c is small: the value is a rounding error.
                model.weights = vec![1.0];
                model.discounts = vec![pow2(LOW)];
                let level = rounded(1e10, 3 + self.below(6) as u8);
                *inputs = edge::Model {
                    a: decimal(false, 1, self.below(6) as u8),
                    b: level,
                    c: decimal(false, 1, 28),
                    lambda: decimal(false, 1, 28),
                    eta: decimal(false, 1, 28),
                    spot: decimal(false, 100, 0),
                    factor_count: 1,
                    factors: [level; 10],
                };
            }
            _ => {}
        }
        model
    }

    fn given(&mut self, model: &Model) -> Factors {
        let mut given = Factors {
            count: model.weights.len(),
            factors: model.inputs.factors,
        };
        let any = self.one_in(8);
        for factor in &mut given.factors {
            match self.below(4) {
                0 if any => {
                    *factor = decimal(self.flip(), self.coefficient(), self.below(29) as u8);
                }
                0 => *factor = self.signed(0.3),
                _ => {}
            }
        }
        given
    }

    fn vix(&mut self, size: Size) -> Case {
        let mut model = self.vix_model(size);
        let side = dimension(model.weights.len());
        let mut window = self.window();
        let mut given = self.given(&model);
        if self.one_in(12) {
            // The largest factors, with moments that grow quickly.
            let eta = self.pick(&[30.0, 100.0, 150.0, 200.0]);
            model.inputs.eta = self.around(eta);
            given.factors = [decimal(self.flip(), MAX, 0); 10];
        }
        let mut workspace = 5 * side * side;
        for _ in 0..self.damages() {
            match self.below(4) {
                0 => self.damage_model(&mut model),
                1 => self.damage_window(&mut window),
                2 => workspace = self.damage_length(workspace),
                _ => {
                    let n = given.count;
                    if self.flip() {
                        given.count =
                            self.pick(&[0, n.saturating_sub(1), n.wrapping_add(1), 11, usize::MAX]);
                    } else {
                        let i = self.below(n.clamp(1, 10) as u64) as usize;
                        given.factors[i].scale = self.over_scaled();
                    }
                }
            }
        }
        Case::Vix {
            model,
            window,
            given,
            workspace,
        }
    }

    fn vix_batch(&mut self, size: Size) -> Case {
        let mut model = self.vix_model(size);
        let mut schedule = self.schedule(size);
        let mut window = self.window();
        let extreme = self.one_in(16);
        let mut paths = if extreme {
            size.paths.max(9) as usize
        } else {
            self.paths(size, false)
        };
        let mut draws = self.draws(&schedule, paths);
        if extreme {
            // Squared values around the largest double.
            model = self.figures();
            window = decimal(false, 1, 1 + self.below(4) as u8);
            let total = Self::total(&schedule);
            let large = self.spread(-3, 6) * 1e152;
            for path in draws.chunks_exact_mut(total) {
                path[total - 1] = self.pick(&[large, -large, 0.0]);
            }
        } else {
            self.steer(&mut model, &schedule, &mut draws);
        }
        let mut payoff = VixPayoff {
            future: self.one_in(3),
            put: self.flip(),
            strike: self.around(40.0),
        };
        if self.one_in(8) {
            payoff.strike = self.zero();
        }
        let side = dimension(model.weights.len());
        let mut workspace = 5 * side * side;
        let mut observations = paths * schedule.count;
        for _ in 0..self.damages() {
            match self.below(8) {
                0 => self.damage_model(&mut model),
                1 => self.damage_schedule(&mut schedule),
                2 => self.damage_window(&mut window),
                3 => workspace = self.damage_length(workspace),
                4 => self.damage_strike(&mut payoff.strike),
                5 => paths = self.damage_paths(paths),
                6 => self.resize(&mut draws),
                _ => observations = self.damage_length(observations),
            }
        }
        Case::VixBatch {
            model,
            schedule,
            window,
            payoff,
            paths,
            draws,
            workspace,
            observations,
        }
    }

    fn exponential(&mut self, size: Size) -> Case {
        let mut dimension = match self.below(40) {
            0 if size.large => self.pick(&[16, 23, 46, 67]),
            1..=4 if size.large => 7 + self.below(8) as usize,
            _ => 1 + self.below(if size.large { 6 } else { 4 }) as usize,
        };
        let mut input = self.matrix(dimension);
        let mut output = input.len();
        let mut workspace = 5 * input.len();
        for _ in 0..self.damages() / 2 {
            match self.below(4) {
                0 => {
                    dimension = self.pick(&[0, dimension.wrapping_add(1), 68, 1 << 32, usize::MAX])
                }
                1 => self.resize(&mut input),
                2 => output = self.damage_length(output),
                _ => workspace = self.damage_length(workspace),
            }
        }
        Case::Exponential {
            dimension,
            input,
            output,
            workspace,
        }
    }

    fn matrix(&mut self, dimension: usize) -> Vec<f64> {
        let mut matrix = vec![0.0; dimension * dimension];
        // A large exponent means many squarings.
        let most = if dimension <= 6 { 1023 } else { 12 };
        let kind = self.below(10);
        let exponent = match self.below(6) {
            0 => most - self.below(4) as i32,
            1 => self.below(most as u64) as i32,
            _ => self.below(14) as i32 - 8,
        };
        for row in 0..dimension {
            for column in 0..dimension {
                matrix[row * dimension + column] = match kind {
                    // Powers of two and zeros.
                    0 => self.pick(&[0.0, 0.0, -0.0, 1.0, -1.0, 0.5, 2.0, 0.25]),
                    // Above the diagonal only: the exponential stays finite.
                    1 if row >= column => 0.0,
                    1 => self.pick(&[0.0, 1.0, -1.0, 0.75, 1.5]) * pow2(exponent - 1),
                    // On the diagonal only: the norm is an entry.
                    2 | 3 if row != column => 0.0,
                    2 => self.pick(&[1.0, -1.0, -1.0, 0.0]) * pow2(exponent - 1),
                    3 => {
                        let close = pow2(52 + self.pick(&[-52, -51, -41, -40, -39])) as u64;
                        let power = pow2(exponent - 1);
                        let bits = if self.flip() {
                            power.to_bits() + close
                        } else {
                            power.to_bits() - close
                        };
                        -f64::from_bits(bits)
                    }
                    4 => self.normal() * pow2(exponent.min(6)),
                    // Decay, as of a moment system.
                    5 if row == column => -self.unit() * pow2(exponent.min(20)),
                    5 if self.flip() => 0.0,
                    5 => self.unit() * pow2(exponent.min(4)),
                    6 if self.one_in(8) => self.pick(&WILD),
                    7 if dimension <= 6 => f64::from_bits(self.next()),
                    8 => self.spread(-1074, -1000),
                    _ => self.between(-1.0, 1.0),
                };
            }
        }
        matrix
    }
}
