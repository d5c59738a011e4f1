//! Down-and-out puts: barriers at, just above and just below spots of the same batch, and others.

use super::{MAX, Source, decimal};
use crate::calls;
use crate::cases::{Model, Terms};
use crate::edge::{Decimal, Schedule};

/// The paths of a batch, to be walked.
pub(super) struct Paths<'a> {
    pub(super) mirrored: bool,
    pub(super) model: &'a Model,
    pub(super) schedule: &'a Schedule,
    pub(super) paths: usize,
    pub(super) draws: &'a [f64],
}

impl Paths<'_> {
    /// The spots of a path, from 0, as far as its steps are finite: the start's is the first.
    fn spots(&self, path: usize) -> Vec<f64> {
        let total = Source::total(self.schedule);
        let list = if self.mirrored { path / 2 } else { path };
        let mut draws = self.draws[list * total..][..total].to_vec();
        if self.mirrored && path % 2 == 1 {
            draws.iter_mut().for_each(|draw| *draw = -*draw);
        }
        calls::spots(
            &self.model.weights,
            &self.model.discounts,
            &self.model.inputs,
            self.schedule,
            &draws,
        )
    }

    fn lowest(&self, path: usize) -> f64 {
        self.spots(path).into_iter().fold(f64::INFINITY, f64::min)
    }
}

/// The Decimal of digits with a point among them or none, if there is one.
fn read(digits: &str) -> Option<Decimal> {
    let (whole, places) = digits.split_once('.').unwrap_or((digits, ""));
    let coefficient: u128 = format!("{whole}{places}").parse().ok()?;
    let scale = u8::try_from(places.len()).ok()?;
    (coefficient <= MAX).then(|| decimal(false, coefficient, scale))
}

impl Source {
    /// A Decimal that converts to the double, if one is found: its shortest digits, as many of its
    /// digits as a Decimal holds, or a number less than half a unit of its last place away.
    fn written(&mut self, value: f64) -> Option<Decimal> {
        let before = value.log10().floor().max(0.0) as usize + 1;
        let places = 28_usize.saturating_sub(before);
        let mut digits = match self.below(3) {
            0 => read(&format!("{value}"))?,
            _ => read(&format!("{value:.places$}"))?,
        };
        if self.one_in(3) {
            let unit = (value.next_up() - value) * 10_f64.powi(i32::from(digits.scale));
            let coefficient = u128::from(digits.high) << 64 | u128::from(digits.low);
            let away = self.between(-0.5, 0.5) * unit;
            digits = decimal(
                false,
                coefficient.saturating_add_signed(away as i128),
                digits.scale,
            );
        }
        let converted = calls::convert(digits);
        (converted.number == 0 && converted.value == value).then_some(digits)
    }

    /// At a spot, or at the next double above or below it, if a Decimal above zero is found there.
    fn beside(&mut self, spot: f64) -> Option<Decimal> {
        let value = match self.below(4) {
            0 => spot.next_up(),
            1 => spot.next_down(),
            _ => spot,
        };
        if value > 0.0 {
            self.written(value)
        } else {
            None
        }
    }

    /// A strike and a barrier for the paths of a batch. The strike is mostly far above the start,
    /// so that it is seen whether a path pays.
    pub(super) fn down_and_out(&mut self, paths: &Paths) -> Terms {
        let path = self.member(paths.paths);
        let spots = paths.spots(path);
        let start = spots[0];
        let strike = match self.below(6) {
            0 => self.strike(),
            _ => self.around(2.0 * start),
        };
        let found = match self.below(16) {
            0 => None,
            1 => Some(decimal(
                false,
                self.coefficient().max(1),
                self.below(29) as u8,
            )),
            // Below every spot, of a path that stays above zero.
            2 => Some(decimal(false, 1 + u128::from(self.below(9)), 28)),
            // At the start, or beside it.
            3 if self.flip() => Some(paths.model.inputs.spot),
            3 => self.beside(start),
            // Above the start.
            4 => Some(self.close(2.0 * start)),
            // At any spot of the path.
            5 => {
                let spot = self.pick(&spots);
                self.beside(spot)
            }
            // At the lowest spot of one of the four paths of a group.
            6..=11 => {
                let first = path / 4 * 4;
                let four = first..paths.paths.min(first + 4);
                let mut lowest: Vec<f64> = four.map(|path| paths.lowest(path)).collect();
                lowest.retain(|spot| *spot > 0.0);
                if lowest.is_empty() {
                    None
                } else {
                    let spot = self.pick(&lowest);
                    self.beside(spot)
                }
            }
            // At its lowest spot.
            _ => self.beside(paths.lowest(path)),
        };
        let barrier = found.unwrap_or_else(|| self.around(0.7 * start));
        Terms::DownAndOut { strike, barrier }
    }

    pub(super) fn damage_barrier(&mut self, barrier: &mut Decimal) {
        match self.below(6) {
            0 => *barrier = self.zero(),
            1 => barrier.negative = true,
            2 | 3 => barrier.scale = self.over_scaled(),
            4 => *barrier = decimal(true, self.coefficient().max(1), self.over_scaled()),
            _ => *barrier = self.decimal(),
        }
    }
}
