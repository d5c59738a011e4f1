//! The guess of a root that the core makes where it walks four paths side by side. Cases in which
//! it is wrong are made with it; no answer depends on it.
//!
//! It is wrong about once in two million, but within some 100,000 units of the last place of a
//! power of four about once in five. It is never asked for the root of a subnormal number: a
//! variance is at least c, which has at most 28 places.

/// About √x, as `near_root` of crates/lanes/src/roots.rt has it, with its constants.
#[must_use]
#[allow(clippy::excessive_precision)]
pub fn near_root(x: f64) -> f64 {
    let h = 0.5 * x;
    let bits = if x.is_nan() { 0 } else { x.to_bits() };
    let half = (bits >> 1) % 0x4000_0000_0000_0000;
    let r0 = f64::from_bits(0x5fe6_ed21_02dc_bfda - half);
    let r1 = 1.50087895511633457 * r0 - h * r0 * (r0 * r0);
    let c = 134217728.0 * r1 * x;
    let r = 1.50000057967625766 * r1 - h * r1 * (r1 * r1);
    let s = x * r;
    let upper = (s + c) - c;
    let rest = (x - upper * upper) - (s + upper) * (s - upper);
    let w = s * r;
    s + (1.1875 * r - r * w * (1.0 - 0.3125 * w)) * rest
}

/// Whether the root of a number above zero is guessed wrong.
#[must_use]
pub fn wrong(x: f64) -> bool {
    near_root(x) != x.sqrt()
}

/// The numbers below 0.04 of nine places whose roots are guessed wrong, times 10^9.
pub const WRONG: [u32; 20] = [
    261_547, 1_046_188, 1_801_005, 4_184_752, 7_204_020, 7_283_342, 8_224_726, 12_914_025,
    14_349_482, 16_739_008, 16_851_287, 18_204_517, 21_181_606, 28_584_978, 28_816_080, 29_133_368,
    29_329_839, 32_898_904, 33_608_111, 34_452_729,
];
