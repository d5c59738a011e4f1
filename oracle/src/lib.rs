//! The judge of the core: see README.md.

pub mod calls;
pub mod cases;
mod down_and_out;
pub mod figures;
pub mod generator;
pub mod guess;
#[allow(dead_code)]
mod optionstratlib;
pub mod questions;
pub mod records;
mod samples;

/// What crosses the C edge.
pub use qrh_sys as edge;
