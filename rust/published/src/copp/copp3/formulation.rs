//! The problem as the published files see it, and its weights.

use crate::copp::CoppObjective;
use crate::copp::constraints::Constraints;
use crate::robot::robot_core::Robot;
use std::cell::RefCell;

pub struct Topp3Problem<'a> {
    pub constraints: &'a Constraints<'a>,
    pub idx_s_start: usize,
    pub a_linearization: &'a [f64],
    pub a_boundary: (f64, f64),
    pub b_boundary: (f64, f64),
}

pub struct Copp3Problem<'a, M> {
    pub robot: &'a Robot<'a, M>,
    pub objectives: &'a [CoppObjective<'a>],
    pub idx_s_start: usize,
    pub a_linearization: &'a [f64],
    pub a_boundary: (f64, f64),
    pub b_boundary: (f64, f64),
    pub num_stationary: (usize, usize),
}

impl<M> Copp3Problem<'_, M> {
    pub fn as_topp3_problem(&self) -> Topp3Problem<'_> {
        Topp3Problem {
            constraints: &self.robot.constraints,
            idx_s_start: self.idx_s_start,
            a_linearization: self.a_linearization,
            a_boundary: self.a_boundary,
            b_boundary: self.b_boundary,
        }
    }
}

thread_local! {
    static THERMAL: RefCell<Vec<f64>> = RefCell::default();
}

/// Table 10, for the next problem of this thread.
pub fn lend_thermal_weights(weights: &[f64]) {
    THERMAL.replace(weights.to_vec());
}

pub(crate) fn get_weight_a_copp3(_: &[f64], _: (usize, usize)) -> Vec<f64> {
    THERMAL.with_borrow(Vec::clone)
}

include!("formulation_excerpt.rs");
