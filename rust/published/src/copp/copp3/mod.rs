//! Third-order problems.

pub mod builder;
pub mod formulation;
pub mod opt3;

/// A profile is never asked for.
pub struct Topp3Profile;

/// Profile parts `(a, b, num_stationary)`.
pub type Topp3ProfileRef<'a> = (&'a [f64], &'a [f64], (usize, usize));
