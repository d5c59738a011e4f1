//! The generated cases: every number that a call can give occurs, and the record of a case is the
//! case. The recorded list is what the oracle still gives.

use oracle::cases::CALLS;
use oracle::{generator, records};
use std::collections::BTreeSet;
use std::fs;

/// The numbers that a call can give, in the order of `CALLS`.
const NUMBERS: [&[u32]; 10] = [
    &[0, 1],
    &[0],
    &[0, 1, 2, 3, 4, 5, 6, 7, 8, 9, 10, 11, 12, 13, 14, 20, 21, 22],
    &[
        0, 1, 2, 3, 4, 5, 6, 7, 8, 9, 10, 11, 12, 13, 14, 18, 19, 20, 21, 22, 25,
    ],
    &[
        0, 1, 2, 3, 4, 5, 6, 7, 8, 9, 10, 11, 12, 13, 14, 18, 19, 20, 21, 22, 25, 28,
    ],
    &[0, 1, 2, 3, 4, 5, 6, 7, 8, 9, 10, 15, 16, 17, 23, 24],
    &[
        0, 1, 2, 3, 4, 5, 6, 7, 8, 9, 10, 11, 12, 13, 14, 15, 16, 17, 18, 19, 20, 21, 22, 23, 24,
        25,
    ],
    &[0, 16, 17, 26],
    &[
        0, 1, 2, 3, 4, 5, 6, 7, 8, 9, 10, 11, 12, 13, 14, 18, 19, 20, 21, 22, 25, 27,
    ],
    &[
        0, 1, 2, 3, 4, 5, 6, 7, 8, 9, 10, 11, 12, 13, 14, 18, 19, 20, 21, 22, 25, 27, 28,
    ],
];

#[test]
fn every_number_occurs() {
    for (call, numbers) in NUMBERS.iter().enumerate() {
        let wanted: BTreeSet<u32> = numbers.iter().copied().collect();
        let mut found = BTreeSet::new();
        for index in 0..20_000 {
            found.insert(
                generator::case(1, call, index, generator::SMALL)
                    .expected()
                    .number,
            );
            if found == wanted {
                break;
            }
        }
        assert_eq!(found, wanted, "{}", CALLS[call]);
    }
}

#[test]
fn a_record_is_its_case() {
    let mut cases = Vec::new();
    for call in 0..CALLS.len() {
        for index in 0..200 {
            let case = records::trimmed(generator::case(2, call, index, generator::SMALL));
            if records::fits(&case) {
                let outcome = case.expected();
                cases.push((case, outcome));
            }
        }
    }
    let words = records::write(&cases);
    let read = records::read(&words).expect("a whole file");
    assert_eq!(read.len(), cases.len());
    assert_eq!(words, records::write(&read));
    for ((_, outcome), (_, again)) in cases.iter().zip(&read) {
        assert_eq!(outcome.difference(again), None);
        assert_eq!(outcome.workspace_free, again.workspace_free);
    }
    assert!(records::read(&words[..words.len() - 1]).is_err());
}

#[test]
fn the_recorded_list_stays() {
    let file = concat!(env!("CARGO_MANIFEST_DIR"), "/../crates/replay/stdin");
    let bytes = fs::read(file).expect("the recorded list");
    let words: Vec<u64> = bytes
        .chunks_exact(8)
        .map(|word| u64::from_le_bytes(word.try_into().expect("eight bytes")))
        .collect();
    let recorded = records::read(&words).expect("a whole file");
    assert_eq!(words, records::write(&recorded));
    for (i, (case, outcome)) in recorded.iter().enumerate() {
        assert_eq!(case.expected().difference(outcome), None, "case {}", i + 1);
    }
}
