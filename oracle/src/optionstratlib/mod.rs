//! A copy of the Rust of OptionStratLib (LICENSE-OptionStratLib) with test-only access to its raw
//! doubles, kernel tables and draws. What differs from the library is marked `Oracle:`.

pub mod decimal;
pub mod error;
pub mod quadratic_rough_heston;
pub mod quadratic_rough_heston_vix;
pub mod stand_in;
