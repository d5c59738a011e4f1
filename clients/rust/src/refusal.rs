use std::error::Error;
use std::fmt;

/// A table of the kernel.
#[derive(Debug, Clone, Copy, PartialEq, Eq)]
pub enum KernelTable {
    /// The weights.
    Weights,
    /// The discounts.
    Discounts,
}

/// A quantity of a state that must stay finite.
#[derive(Debug, Clone, Copy, PartialEq, Eq)]
pub enum Quantity {
    /// The spot.
    Spot,
    /// The sum of weight × factor.
    Z,
    /// The variance.
    Variance,
}

/// One of the four estimates of a batch, in reported order.
#[derive(Debug, Clone, Copy, PartialEq, Eq)]
pub enum Reported {
    /// The mean payoff.
    Payoff,
    /// The standard error of the payoff.
    PayoffError,
    /// The mean of the terminal spot, or of the index.
    Mean,
    /// The standard error of that mean.
    MeanError,
}

/// Why a call was refused: the specification's number and place, and as text a sentence about the
/// input.
///
/// Places count from 1. `steps` are the steps taken, the failing one included; a VIX evaluation
/// takes none, and has 0.
///
/// ```
/// use qrh::{Decimal, Refusal};
///
/// let fine: Decimal = "0.00000000000000000000000000001".parse()?;
/// let refusal = qrh::convert(fine).unwrap_err();
/// assert_eq!(refusal, Refusal::Scale);
/// assert_eq!(refusal.number(), 1);
/// assert_eq!(
///     refusal.to_string(),
///     "a Decimal that is not zero has more than 28 decimal places (refusal 1)"
/// );
/// # Ok::<(), qrh::ParseDecimalError>(())
/// ```
#[derive(Debug, Clone, Copy, PartialEq, Eq)]
#[non_exhaustive]
#[allow(missing_docs)] // A field's name says what it is.
pub enum Refusal {
    /// 1: a Decimal that is not zero has a scale above 28.
    Scale,
    /// 2: there are not 1 to 10 weights.
    WeightCount,
    /// 3: there are not as many discounts as weights.
    DiscountCount,
    /// 4: a weight or a discount is outside 2^-90 to 2^90.
    KernelRange { table: KernelTable, index: u64 },
    /// 5: a is below zero.
    A,
    /// 6: c is not above zero.
    C,
    /// 7: lambda is not above zero.
    Lambda,
    /// 8: eta is not above zero.
    Eta,
    /// 9: the spot is not above zero.
    Spot,
    /// 10: there are not as many factors as weights.
    FactorCount,
    /// 11: there is no segment.
    NoSegment,
    /// 12: there are more than 64 segments.
    SegmentCount,
    /// 13: a segment's dt is not above zero, or it has no steps.
    Segment { segment: u64 },
    /// 14: the segments up to this one have more than 4,096 steps.
    StepCount { segment: u64 },
    /// 15: the window is not above zero.
    Window,
    /// 16: the workspace is not 5 × dimension² doubles long.
    Workspace,
    /// 17: the norm of the matrix, twice the norm or an entry of its exponential is not finite.
    Exponential,
    /// 18: the strike is below zero.
    Strike,
    /// 19: there are not 2 to 65,536 paths, or in a mirrored batch an odd number of them.
    PathCount,
    /// 20: there are not exactly as many draws as needed.
    DrawCount,
    /// 21: a table is not exactly as long as needed.
    TableLength,
    /// 22: a step is not finite.
    NonFinite {
        path: u64,
        step: u64,
        quantity: Quantity,
        steps: u64,
    },
    /// 23: a path's last VIX squared is not finite. An evaluation has no path and no steps.
    VixNonFinite { path: Option<u64>, steps: u64 },
    /// 24: a path's last VIX squared is not above zero. An evaluation has no path and no steps.
    VixNotPositive { path: Option<u64>, steps: u64 },
    /// 25: an estimate is not finite.
    Estimate { which: Reported, steps: u64 },
    /// 26: the dimension is not 1 to 67, or a matrix is not dimension² doubles long.
    Matrix,
    /// 27: the barrier is not above zero.
    Barrier,
    /// 28: there are fewer than 4 paths in a mirrored batch.
    Pairs,
    /// A number or a place that this crate does not know.
    Unknown { number: u32, place: [u64; 4] },
}

impl Refusal {
    /// The refusal of an answer; `steps` is 0 where the answer has none.
    pub(crate) fn new(number: u32, place: [u64; 4], steps: u64) -> Self {
        let unknown = Self::Unknown { number, place };
        let path = (place[0] != 0).then_some(place[0]);
        match number {
            1 => Self::Scale,
            2 => Self::WeightCount,
            3 => Self::DiscountCount,
            4 => {
                let table = match place[0] {
                    1 => KernelTable::Weights,
                    2 => KernelTable::Discounts,
                    _ => return unknown,
                };
                Self::KernelRange {
                    table,
                    index: place[1],
                }
            }
            5 => Self::A,
            6 => Self::C,
            7 => Self::Lambda,
            8 => Self::Eta,
            9 => Self::Spot,
            10 => Self::FactorCount,
            11 => Self::NoSegment,
            12 => Self::SegmentCount,
            13 => Self::Segment { segment: place[0] },
            14 => Self::StepCount { segment: place[0] },
            15 => Self::Window,
            16 => Self::Workspace,
            17 => Self::Exponential,
            18 => Self::Strike,
            19 => Self::PathCount,
            20 => Self::DrawCount,
            21 => Self::TableLength,
            22 => {
                let quantity = match place[2] {
                    1 => Quantity::Spot,
                    2 => Quantity::Z,
                    3 => Quantity::Variance,
                    _ => return unknown,
                };
                Self::NonFinite {
                    path: place[0],
                    step: place[1],
                    quantity,
                    steps: place[3],
                }
            }
            23 => Self::VixNonFinite { path, steps },
            24 => Self::VixNotPositive { path, steps },
            25 => {
                let which = match place[0] {
                    1 => Reported::Payoff,
                    2 => Reported::PayoffError,
                    3 => Reported::Mean,
                    4 => Reported::MeanError,
                    _ => return unknown,
                };
                Self::Estimate { which, steps }
            }
            26 => Self::Matrix,
            27 => Self::Barrier,
            28 => Self::Pairs,
            _ => unknown,
        }
    }

    /// The specification's number.
    #[must_use]
    pub fn number(&self) -> u32 {
        match self {
            Self::Scale => 1,
            Self::WeightCount => 2,
            Self::DiscountCount => 3,
            Self::KernelRange { .. } => 4,
            Self::A => 5,
            Self::C => 6,
            Self::Lambda => 7,
            Self::Eta => 8,
            Self::Spot => 9,
            Self::FactorCount => 10,
            Self::NoSegment => 11,
            Self::SegmentCount => 12,
            Self::Segment { .. } => 13,
            Self::StepCount { .. } => 14,
            Self::Window => 15,
            Self::Workspace => 16,
            Self::Exponential => 17,
            Self::Strike => 18,
            Self::PathCount => 19,
            Self::DrawCount => 20,
            Self::TableLength => 21,
            Self::NonFinite { .. } => 22,
            Self::VixNonFinite { .. } => 23,
            Self::VixNotPositive { .. } => 24,
            Self::Estimate { .. } => 25,
            Self::Matrix => 26,
            Self::Barrier => 27,
            Self::Pairs => 28,
            Self::Unknown { number, .. } => *number,
        }
    }

    /// The specification's place, counted from 1; 0 where there is none.
    #[must_use]
    pub fn place(&self) -> [u64; 4] {
        match *self {
            Self::KernelRange { table, index } => [table as u64 + 1, index, 0, 0],
            Self::Segment { segment } | Self::StepCount { segment } => [segment, 0, 0, 0],
            Self::NonFinite {
                path,
                step,
                quantity,
                steps,
            } => [path, step, quantity as u64 + 1, steps],
            Self::VixNonFinite { path, .. } | Self::VixNotPositive { path, .. } => {
                [path.unwrap_or(0), 0, 0, 0]
            }
            Self::Estimate { which, .. } => [which as u64 + 1, 0, 0, 0],
            Self::Unknown { place, .. } => place,
            _ => [0; 4],
        }
    }
}

fn sentence(refusal: &Refusal, f: &mut fmt::Formatter<'_>) -> fmt::Result {
    f.write_str(match *refusal {
        Refusal::Scale => "a Decimal that is not zero has more than 28 decimal places",
        Refusal::WeightCount => "there are no weights, or more than 10",
        Refusal::DiscountCount => "there are not as many discounts as weights",
        Refusal::KernelRange { table, index } => {
            let name = match table {
                KernelTable::Weights => "weight",
                KernelTable::Discounts => "discount",
            };
            return write!(f, "{name} {index} is outside 2^-90 to 2^90");
        }
        Refusal::A => "a is below zero",
        Refusal::C => "c is not above zero",
        Refusal::Lambda => "lambda is not above zero",
        Refusal::Eta => "eta is not above zero",
        Refusal::Spot => "the spot is not above zero",
        Refusal::FactorCount => "there are not as many factors as weights",
        Refusal::NoSegment => "the schedule has no segment",
        Refusal::SegmentCount => "the schedule has more than 64 segments",
        Refusal::Segment { segment } => {
            return write!(
                f,
                "segment {segment} has no steps, or a dt that is not above zero"
            );
        }
        Refusal::StepCount { segment } => {
            return write!(
                f,
                "the segments up to segment {segment} have more than 4,096 steps"
            );
        }
        Refusal::Window => "the window is not above zero",
        Refusal::Workspace => "the workspace is not exactly 5 x dimension^2 doubles long",
        Refusal::Exponential => {
            "the norm of the matrix, twice the norm or an entry of its exponential is not finite"
        }
        Refusal::Strike => "the strike is below zero",
        Refusal::PathCount => {
            "there are not 2 to 65,536 paths, or in a mirrored batch not an even number of them"
        }
        Refusal::DrawCount => "there are not exactly as many draws as needed",
        Refusal::TableLength => "a table is not exactly as long as needed",
        Refusal::NonFinite {
            path,
            step,
            quantity,
            steps,
        } => {
            let name = match quantity {
                Quantity::Spot => "spot",
                Quantity::Z => "z",
                Quantity::Variance => "variance",
            };
            return write!(
                f,
                "the {name} of path {path} is not finite after step {step} (steps taken: {steps})"
            );
        }
        Refusal::VixNonFinite { path: None, .. } => "the VIX squared is not finite",
        Refusal::VixNonFinite {
            path: Some(path), ..
        } => {
            return write!(f, "the VIX squared of path {path} is not finite");
        }
        Refusal::VixNotPositive { path: None, .. } => "the VIX squared is not above zero",
        Refusal::VixNotPositive {
            path: Some(path), ..
        } => {
            return write!(f, "the VIX squared of path {path} is not above zero");
        }
        Refusal::Estimate { which, .. } => match which {
            Reported::Payoff => "the mean payoff is not finite",
            Reported::PayoffError => "the standard error of the payoff is not finite",
            Reported::Mean => "the mean of the terminal spot or index is not finite",
            Reported::MeanError => "the standard error of the terminal spot or index is not finite",
        },
        Refusal::Matrix => {
            "the dimension is not 1 to 67, or a matrix is not exactly dimension^2 doubles long"
        }
        Refusal::Barrier => "the barrier is not above zero",
        Refusal::Pairs => "there are fewer than 4 paths in a mirrored batch",
        Refusal::Unknown { .. } => {
            "the core refused the input for a reason that this client does not know"
        }
    })
}

impl fmt::Display for Refusal {
    fn fmt(&self, f: &mut fmt::Formatter<'_>) -> fmt::Result {
        sentence(self, f)?;
        write!(f, " (refusal {})", self.number())
    }
}

impl Error for Refusal {}

#[cfg(test)]
mod tests {
    use super::*;

    /// The lines of tests/refusals.txt: a number, its place and the sentence.
    #[test]
    fn sentences() {
        let list = concat!(env!("CARGO_MANIFEST_DIR"), "/../../tests/refusals.txt");
        let list = std::fs::read_to_string(list).expect("the list of refusals");
        let mut seen = Vec::new();
        for line in list.lines().filter(|line| !line.starts_with('#')) {
            let mut parts = line.splitn(3, " | ");
            let mut part = || parts.next().expect("three parts");
            let number = part().trim().parse().expect("a number");
            let mut place = [0; 4];
            for (word, given) in place.iter_mut().zip(part().split_whitespace()) {
                *word = given.parse().expect("a place");
            }
            let refusal = Refusal::new(number, place, 7);
            assert_eq!(
                refusal.to_string(),
                format!("{} (refusal {number})", part())
            );
            assert_eq!((refusal.number(), refusal.place()), (number, place));
            seen.push(number);
        }
        seen.dedup();
        assert_eq!(seen.pop(), Some(99), "one that is not known");
        assert_eq!(seen, (1..=seen.len() as u32).collect::<Vec<_>>());
    }

    #[test]
    fn places_that_are_not_known() {
        for number in [4, 22, 25] {
            let refusal = Refusal::new(number, [9; 4], 0);
            assert_eq!(
                refusal,
                Refusal::Unknown {
                    number,
                    place: [9; 4]
                }
            );
        }
    }
}
