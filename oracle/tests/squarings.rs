//! Where the Rust's number of squarings, by a rounded log2, is not the least one.

use oracle::calls::rust_squarings;
use oracle::questions::{excluded_norm, squarings};

#[test]
fn the_least_norm_where_they_part() {
    let norm = 8.0_f64.next_up();
    assert_eq!(norm.to_bits(), 0x4020_0000_0000_0001);
    assert_eq!((rust_squarings(norm), squarings(norm)), (Some(4), 5));
    assert!(excluded_norm(norm));
}

/// Every double within 2^14 units in the last place of each power of two from 2^-1 to 2^1022.
#[test]
fn around_every_power_of_two() {
    let mut farthest_above = 0;
    let mut least = f64::INFINITY;
    for exponent in -1..=1022 {
        let power = 2.0_f64.powi(exponent);
        assert_eq!(rust_squarings(power), Some(exponent + 1));
        assert_eq!(squarings(power), (exponent + 1) as u64);
        assert_eq!(squarings(power.next_up()), (exponent + 2) as u64);
        for units in 1..=1 << 14 {
            let above = f64::from_bits(power.to_bits() + units);
            if rust_squarings(above) != Some(exponent + 2) {
                assert_eq!(rust_squarings(above), Some(exponent + 1));
                assert!(excluded_norm(above));
                farthest_above = farthest_above.max(units);
                least = least.min(above);
            }
            let below = f64::from_bits(power.to_bits() - units);
            let expected = (exponent + 1).max(0);
            assert_eq!(rust_squarings(below), Some(expected), "{below:e}");
        }
    }
    assert_eq!(least, 8.0_f64.next_up());
    assert_eq!(farthest_above, 177);
}
