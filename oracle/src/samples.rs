//! The samples of a batch, which its running moments take: each path, or each mirrored pair. Read
//! from docs/SPECIFICATION.md, rule 10.2: the Rust has no mirrored batch.

/// How many paths a sample has.
pub(crate) fn size(mirrored: bool) -> usize {
    if mirrored { 2 } else { 1 }
}

/// The value of a sample: that of its path, or the average of its two.
pub(crate) fn mean<T>(sample: &[T], value: impl Fn(&T) -> f64) -> f64 {
    match sample {
        [path] => value(path),
        [first, second] => (value(first) + value(second)) / 2.0,
        _ => unreachable!("one path or two"),
    }
}
