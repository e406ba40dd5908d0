//! The published assembly.

#[allow(clippy::all)]
#[rustfmt::skip]
pub(crate) mod clarabel_constraints;
#[allow(clippy::all, dead_code)]
#[rustfmt::skip]
pub mod copp3_socp;

use super::Topp3Profile;
use crate::solver::DefaultSolution;

pub struct ClarabelExpertInfor3rd {
    pub result: Option<Topp3Profile>,
    pub solution: DefaultSolution<f64>,
    pub linsolver: (),
}
