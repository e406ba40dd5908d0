//! Seeded random problems for the comparison, the benchmark and the sample list.

pub mod generate;
pub mod long;
pub mod rng;
