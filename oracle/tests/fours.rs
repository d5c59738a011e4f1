//! What a walk of four paths side by side could get wrong occurs often enough among the generated
//! batches.

use oracle::calls;
use oracle::cases::{CALLS, Case, Model, Outcome};
use oracle::edge::Schedule;
use oracle::{generator, guess};
use std::collections::{BTreeMap, BTreeSet};

const CASES: u64 = 2_000;

/// The least share of the cases of a call.
const SHARE: u64 = 100;

/// A path as it was walked: spots and variances by point, as far as they are finite.
struct Walked {
    spots: Vec<f64>,
    variances: Vec<f64>,
}

fn walked(model: &Model, schedule: &Schedule, draws: &[f64]) -> Walked {
    let points = draws.len() + 1;
    let table = vec![0.0; points];
    let (mut spots, mut variances, mut z) = (table.clone(), table.clone(), table);
    let mut factors = vec![0.0; points * model.weights.len()];
    let answer = calls::trace(
        &model.weights,
        &model.discounts,
        &model.inputs,
        schedule,
        draws,
        &mut spots,
        &mut variances,
        &mut z,
        &mut factors,
    );
    let taken = if answer.number == 22 {
        answer.steps as usize
    } else {
        points
    };
    spots.truncate(taken);
    variances.truncate(taken);
    Walked { spots, variances }
}

/// What a batch that was run shows.
fn kinds(case: &Case, outcome: &Outcome) -> BTreeSet<String> {
    let mut kinds = BTreeSet::new();
    let mut see = |kind: &str, seen: bool| {
        if seen {
            kinds.insert(String::from(kind));
        }
    };
    let (mirrored, model, schedule, paths, draws) = match case {
        Case::Vanilla {
            mirrored,
            model,
            schedule,
            paths,
            draws,
            ..
        } => (*mirrored, model, schedule, *paths, draws),
        Case::VixBatch {
            model,
            schedule,
            paths,
            draws,
            ..
        } => (false, model, schedule, *paths, draws),
        _ => panic!("a batch"),
    };
    match paths {
        2..=9 => see(&format!("{paths} paths"), true),
        _ => see(&format!("more paths, 4k + {}", paths % 4), true),
    }
    see(&format!("{} segments", schedule.count), true);
    see(&format!("{} factors", model.weights.len()), true);
    see("a draw not finite", draws.iter().any(|x| !x.is_finite()));
    see("a huge draw", draws.iter().any(|x| x.abs() > 1e100));

    let groups = paths / 4;
    if outcome.number == 22 {
        let [path, step, quantity, _] = outcome.place;
        let group = (path as usize - 1) / 4;
        let ends = schedule.segments[..schedule.count].iter();
        let ends = ends.scan(0, |last, segment| {
            *last += u64::from(segment.steps);
            Some(*last)
        });
        see(
            "a stop at a segment's end",
            ends.clone().any(|end| end == step),
        );
        see(
            "a stop before a segment's end",
            ends.clone().all(|end| end != step),
        );
        see(&format!("a stop by quantity {quantity}"), true);
        see("a stop by usual draws", draws.iter().all(|x| x.abs() < 7.0));
        see(
            &format!("a stop in place {} of four", (path - 1) % 4 + 1),
            group < groups,
        );
        see(
            "a stop in the first four of three or more",
            groups > 2 && group == 0,
        );
        see(
            "a stop in a middle four",
            (1..groups.saturating_sub(1)).contains(&group),
        );
        see(
            "a stop in the last four of three or more",
            groups > 2 && group + 1 == groups,
        );
        see("a stop after the last four", group == groups);
    }

    let total = draws.len() / if mirrored { paths / 2 } else { paths };
    let mut lists = Vec::new();
    for list in draws.chunks_exact(total) {
        lists.push(walked(model, schedule, list));
        if mirrored {
            let negated: Vec<f64> = list.iter().map(|draw| -draw).collect();
            lists.push(walked(model, schedule, &negated));
        }
    }
    let some = |of: fn(&Walked) -> bool| {
        let counts: Vec<usize> = lists
            .chunks_exact(4)
            .map(|four| four.iter().filter(|path| of(path)).count())
            .collect();
        counts.contains(&1)
    };
    // The variance after the last step needs no root.
    let rooted = |path: &Walked| path.variances.len().min(total);
    let first_wrong = |path: &Walked| {
        path.variances[..rooted(path)]
            .iter()
            .position(|variance| guess::wrong(*variance))
    };
    see(
        "a spot of zero in one of four",
        some(|path| path.spots.contains(&0.0)),
    );
    see(
        "a spot below zero in one of four",
        some(|path| path.spots.iter().any(|x| *x < 0.0)),
    );
    see(
        "a variance above 1e290",
        lists
            .iter()
            .any(|path| path.variances.iter().any(|x| *x > 1e290)),
    );
    see(
        "a root guessed wrong at the first step",
        lists.iter().any(|path| first_wrong(path) == Some(0)),
    );
    see(
        "a root guessed wrong later",
        lists.iter().any(|path| first_wrong(path) > Some(0)),
    );
    kinds
}

/// The kinds that must occur in a call.
fn wanted(call: usize) -> Vec<String> {
    let mirrored = call == 4 || call == 9;
    let mut wanted: Vec<String> = [
        "a draw not finite",
        "a huge draw",
        "a stop at a segment's end",
        "a stop before a segment's end",
        "a stop by usual draws",
        "a stop in the first four of three or more",
        "a stop in a middle four",
        "a stop in the last four of three or more",
        "a stop after the last four",
        "a spot of zero in one of four",
        "a spot below zero in one of four",
        "a variance above 1e290",
        "a root guessed wrong at the first step",
        "a root guessed wrong later",
    ]
    .map(String::from)
    .to_vec();
    for paths in (2..=9).filter(|paths| !mirrored || (*paths > 2 && paths % 2 == 0)) {
        wanted.push(format!("{paths} paths"));
    }
    for rest in (0..4).filter(|rest| !mirrored || rest % 2 == 0) {
        wanted.push(format!("more paths, 4k + {rest}"));
    }
    wanted.extend([1, 2, 3, 63, 64].map(|count| format!("{count} segments")));
    wanted.extend((1..=10).map(|n| format!("{n} factors")));
    wanted.extend([1, 2, 3, 4].map(|place| format!("a stop in place {place} of four")));
    wanted
}

#[test]
fn every_kind_of_batch_occurs() {
    for call in [3, 4, 6, 8, 9] {
        let mut counts: BTreeMap<String, u64> = BTreeMap::new();
        for index in 0..CASES {
            let case = generator::case(1, call, index, generator::WIDE);
            let outcome = case.expected();
            if matches!(outcome.number, 0 | 22..=25) {
                for kind in kinds(&case, &outcome) {
                    *counts.entry(kind).or_default() += 1;
                }
            }
        }
        println!("{}: {counts:#?}", CALLS[call]);
        for kind in wanted(call) {
            let count = counts.get(&kind).copied().unwrap_or(0);
            assert!(count * SHARE >= CASES, "{}: {kind}: {count}", CALLS[call]);
        }
    }
}
