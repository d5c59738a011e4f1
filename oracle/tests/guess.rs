//! Where the guess of a root is wrong.

use oracle::guess::{WRONG, wrong};

#[test]
fn the_list_is_whole() {
    let found: Vec<u32> = (1..40_000_000)
        .filter(|billionths| wrong(f64::from(*billionths) / 1e9))
        .collect();
    assert_eq!(found, WRONG);
}

#[test]
fn next_to_a_power_of_four() {
    for power in [0.0625_f64, 0.25, 1.0, 4.0] {
        assert!(!wrong(power));
        let above = |units| f64::from_bits(power.to_bits() + units);
        let count = (1..=100_000).filter(|units| wrong(above(*units))).count();
        assert!((15_000..25_000).contains(&count), "{count}");
    }
}
