//! What could be got wrong about a barrier occurs often enough among the generated batches of
//! down-and-out puts, where it shows in the price; and so do the refusals around 27.

use oracle::calls;
use oracle::cases::{CALLS, Case, Terms};
use oracle::edge::Decimal;
use oracle::generator::{self, decimal};
use std::cmp::Ordering;
use std::collections::{BTreeMap, BTreeSet};

const CASES: u64 = 4_000;

/// The least share of the cases of a call.
const SHARE: u64 = 200;

fn double(d: Decimal) -> f64 {
    calls::convert(d).value
}

/// A double above zero beside a Decimal above zero, both exact.
fn exactly(value: f64, d: Decimal) -> Ordering {
    const PLACES: usize = 200;
    let coefficient = u128::from(d.high) << 64 | u128::from(d.low);
    let digits = format!("{coefficient}{}", "0".repeat(PLACES - usize::from(d.scale)));
    let exact = format!("{value:.PLACES$}").replace('.', "");
    let width = digits.len().max(exact.len());
    format!("{exact:0>width$}").cmp(&format!("{digits:0>width$}"))
}

/// A path that went to its end: its spots, the start's first.
struct Walked(Vec<f64>);

impl Walked {
    fn lowest(&self) -> f64 {
        self.0.iter().copied().fold(f64::INFINITY, f64::min)
    }

    fn last(&self) -> f64 {
        self.0[self.0.len() - 1]
    }

    /// The points where a barrier is touched.
    fn touches(&self, barrier: f64) -> Vec<usize> {
        let points = 0..self.0.len();
        points.filter(|point| self.0[*point] <= barrier).collect()
    }
}

/// What a batch shows that has a price.
fn kinds(case: &Case) -> BTreeSet<String> {
    let Case::Vanilla {
        mirrored,
        model,
        schedule,
        terms: Terms::DownAndOut { strike, barrier },
        paths,
        draws,
        ..
    } = case
    else {
        panic!("a down-and-out put");
    };
    let (struck, barred) = (double(*strike), double(*barrier));
    let ends: BTreeSet<usize> = schedule.segments[..schedule.count]
        .iter()
        .scan(0, |last, segment| {
            *last += segment.steps as usize;
            Some(*last)
        })
        .collect();
    let total = *ends.last().expect("a segment");
    let walked: Vec<Walked> = (0..*paths)
        .map(|path| {
            let list = if *mirrored { path / 2 } else { path };
            let negated = *mirrored && path % 2 == 1;
            let list = draws[list * total..][..total].iter();
            let list: Vec<f64> = list.map(|x| if negated { -x } else { *x }).collect();
            let (weights, discounts) = (&model.weights, &model.discounts);
            Walked(calls::spots(
                weights,
                discounts,
                &model.inputs,
                schedule,
                &list,
            ))
        })
        .collect();
    let touched: Vec<bool> = walked.iter().map(|path| path.lowest() <= barred).collect();

    let mut kinds = BTreeSet::new();
    let mut see = |kind: &str, seen: bool| {
        if seen {
            kinds.insert(String::from(kind));
        }
    };
    see("no path touches", !touched.contains(&true));
    see("every path touches", !touched.contains(&false));
    see(
        "some paths touch",
        touched.contains(&true) && touched.contains(&false),
    );
    let start = walked[0].0[0];
    see("the barrier at the start", barred == start);
    see("the barrier above the start", barred > start);
    see("the barrier above the strike", barred > struck);

    // Of the paths on which the put would pay.
    for path in walked.iter().filter(|path| path.last() < struck) {
        let lowest = path.lowest();
        let points = path.touches(barred);
        see("a lowest spot at the barrier", lowest == barred);
        see("a lowest spot next above", lowest == barred.next_up());
        see("a lowest spot next below", lowest == barred.next_down());
        let below = lowest > 0.0 && exactly(lowest, *barrier) == Ordering::Greater;
        see("touched as converted alone", lowest == barred && below);
        see("a spot at or below zero", lowest <= 0.0);
        see("touched at the start alone", points == [0]);
        see("touched after the start alone", points.first() > Some(&0));
        see("touched at the last point alone", points == [total]);
        see(
            "touched before the last two points alone",
            points.last().is_some_and(|point| point + 1 < total),
        );
        see(
            "touched inside a segment alone",
            !points.is_empty() && points.iter().all(|k| *k > 0 && !ends.contains(k)),
        );
    }
    let pays = |path: usize| walked[path].last() < struck;
    for first in (0..paths / 4 * 4).step_by(4) {
        let four: Vec<usize> = (first..first + 4).filter(|path| touched[*path]).collect();
        if let [path] = four[..] {
            let place = path % 4 + 1;
            see(&format!("place {place} of four touched alone"), pays(path));
        }
        see("three of four touched", four.len() == 3);
    }
    for (path, touched) in touched.iter().enumerate().skip(paths / 4 * 4) {
        see("after the fours, touched", *touched && pays(path));
        see("after the fours, not touched", !touched && pays(path));
    }
    if *mirrored {
        for (first, second) in (0..*paths).step_by(2).map(|path| (path, path + 1)) {
            let pair = (touched[first], touched[second]);
            see(
                "the first of a pair alone",
                pair == (true, false) && pays(first),
            );
            see(
                "the second of a pair alone",
                pair == (false, true) && pays(second),
            );
        }
    }
    kinds
}

/// What a refused call shows: its number, and what the same call gives where the barrier is mended.
fn refusals(case: &Case, number: u32) -> Option<&'static str> {
    let mut mended = case.clone();
    let Case::Vanilla {
        terms: Terms::DownAndOut { barrier, .. },
        ..
    } = &mut mended
    else {
        panic!("a down-and-out put");
    };
    let bad = std::mem::replace(barrier, decimal(false, 1, 0));
    let not_above = bad.negative || (bad.low, bad.high) == (0, 0);
    let over = bad.scale > 28 && (bad.low, bad.high) != (0, 0);
    Some(match (number, mended.expected().number) {
        (27, 0 | 22..) if over => "27 of a barrier of too large a scale",
        (27, 0 | 22..) => "27 alone",
        (27, 19..=21) => "27 before 19 to 21",
        (1, 0 | 22..) => "1 of the barrier alone",
        (1, 19..=21) => "1 of the barrier before 19 to 21",
        (1, 1) if not_above => "another 1 before 27",
        (18, 18) if not_above => "18 before 27",
        (2..=14, 2..=14) if not_above => "2 to 14 before 27",
        _ => return None,
    })
}

const WANTED: [&str; 25] = [
    "no path touches",
    "every path touches",
    "some paths touch",
    "the barrier at the start",
    "the barrier above the start",
    "the barrier above the strike",
    "a lowest spot at the barrier",
    "a lowest spot next above",
    "a lowest spot next below",
    "touched as converted alone",
    "a spot at or below zero",
    "touched at the start alone",
    "touched after the start alone",
    "touched at the last point alone",
    "touched before the last two points alone",
    "touched inside a segment alone",
    "place 1 of four touched alone",
    "place 2 of four touched alone",
    "place 3 of four touched alone",
    "place 4 of four touched alone",
    "three of four touched",
    "after the fours, touched",
    "after the fours, not touched",
    "27 alone",
    "1 of the barrier alone",
];

/// Of these there are few, since two damages make each.
const WANTED_ONCE: [&str; 6] = [
    "27 of a barrier of too large a scale",
    "27 before 19 to 21",
    "1 of the barrier before 19 to 21",
    "another 1 before 27",
    "18 before 27",
    "2 to 14 before 27",
];

const WANTED_MIRRORED: [&str; 2] = ["the first of a pair alone", "the second of a pair alone"];

#[test]
fn every_kind_of_barrier_occurs() {
    for call in [8, 9] {
        let mut counts: BTreeMap<String, u64> = BTreeMap::new();
        for index in 0..CASES {
            let case = generator::case(1, call, index, generator::WIDE);
            let number = case.expected().number;
            let seen = if number == 0 {
                kinds(&case)
            } else {
                refusals(&case, number)
                    .map(String::from)
                    .into_iter()
                    .collect()
            };
            for kind in seen {
                *counts.entry(kind).or_default() += 1;
            }
        }
        println!("{}: {counts:#?}", CALLS[call]);
        let count = |kind: &str| counts.get(kind).copied().unwrap_or(0);
        let mirrored = WANTED_MIRRORED.iter().filter(|_| call == 9);
        for kind in WANTED.iter().chain(mirrored) {
            let count = count(kind);
            assert!(count * SHARE >= CASES, "{}: {kind}: {count}", CALLS[call]);
        }
        for kind in WANTED_ONCE {
            assert!(count(kind) > 0, "{}: {kind}", CALLS[call]);
        }
    }
}
