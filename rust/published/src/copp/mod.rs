//! The published files in their own places, and stand-ins for their neighbours.

pub mod clarabel_backend;
pub mod constraints;
pub mod copp3;
#[allow(clippy::all, dead_code)]
#[rustfmt::skip]
pub mod objectives;

pub use objectives::CoppObjective;
pub(crate) use objectives::validate_copp3_objectives;

use crate::diag::Verbosity;
use crate::solver::{DefaultSettings, SolverStatus};

/// Options that accept no status, so that no profile is asked for.
#[derive(Default)]
pub struct ClarabelOptions {
    settings: DefaultSettings,
    /// Whether messages are kept.
    pub telling: bool,
}

impl ClarabelOptions {
    pub fn verbosity(&self) -> Verbosity {
        if self.telling {
            Verbosity::Debug
        } else {
            Verbosity::Silent
        }
    }

    pub fn clarabel_settings(&self) -> &DefaultSettings {
        &self.settings
    }

    pub fn is_allow(&self, _: SolverStatus) -> bool {
        false
    }
}

/// Never reached: no status is accepted.
pub fn clarabel_to_copp3_solution(_: &[f64], _: &[f64], _: (usize, usize)) -> copp3::Topp3Profile {
    copp3::Topp3Profile
}
