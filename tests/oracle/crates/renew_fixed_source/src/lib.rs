//! `Fixed` by the source's own scalar.rs, which the build puts beside this file. It shows where
//! scalar.rs and document 01 differ; the oracle itself is built with the other `renew_fixed`.

mod saturation;
mod scalar;

pub use scalar::Fixed;
