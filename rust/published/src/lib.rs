//! The published Rust itself, to hold the reference against.
//!
//! Under `copp`, `copp3_socp.rs`, `clarabel_constraints.rs`, `objectives.rs` and
//! the excerpts of `formulation.rs` (`get_weight_a_topp3`; for the differences
//! `check_num_station_intervals` and `get_weight_a_copp3`) are those of
//! TOPP-THU/copp f9a5f800ee, unchanged (MIT licence, see NOTICE). What they
//! import is stood in for, as thinly as they allow: clarabel, nalgebra and
//! itertools in `stand_ins`, the rest of copp around them, where every answer
//! comes from a lent table. The stand-in solver keeps what it is given and
//! solves nothing.

// The published files name these crates; here they all are this one.
extern crate self as clarabel;
extern crate self as itertools;
extern crate self as nalgebra;

pub mod against;
pub mod copp;
pub mod diag;
pub mod robot;
mod stand_ins;

pub use stand_ins::{Column, DMatrix, DVectorView, Given, Itertools, algebra, solver};

use copp::CoppObjective;
use copp::constraints::Constraints;
use copp::copp3::formulation::Copp3Problem;
use copp::copp3::opt3::copp3_socp::copp3_socp_expert_with_info;
use reference::{Objective, Part, Problem};
use robot::robot_core::Robot;

/// What the published `copp3_socp` hands to the solver, or why it stops.
///
/// The cube roots are its own; tables 14 and 15 are not read.
pub fn published(problem: &Problem) -> Result<Given, diag::CoppError> {
    run(problem, &copp::ClarabelOptions::default())
}

/// What it tells of its work where it is asked to (`Verbosity::Debug`).
pub fn messages(problem: &Problem) -> Result<Vec<String>, diag::CoppError> {
    let mut options = copp::ClarabelOptions::default();
    options.telling = true;
    diag::take_messages();
    run(problem, &options)?;
    Ok(diag::take_messages())
}

fn run(problem: &Problem, options: &copp::ClarabelOptions) -> Result<Given, diag::CoppError> {
    let part = |part: Part| &problem.pool[part.start..part.start + part.len];
    let objectives: Vec<CoppObjective> = problem.objectives[..problem.count]
        .iter()
        .map(|objective| match *objective {
            Objective::Time(weight) => CoppObjective::Time(weight),
            Objective::ThermalEnergy(weight, scales) => {
                CoppObjective::ThermalEnergy(weight, part(scales))
            }
            Objective::TotalVariationTorque(weight, scales) => {
                CoppObjective::TotalVariationTorque(weight, part(scales))
            }
            Objective::Linear(weight, alpha, beta) => {
                CoppObjective::Linear(weight, part(alpha), part(beta))
            }
        })
        .collect();
    let robot = Robot::new(Constraints::new(problem));
    let lent = Copp3Problem {
        robot: &robot,
        objectives: &objectives,
        idx_s_start: 0,
        // Only its length is read.
        a_linearization: problem.grid,
        a_boundary: problem.boundary.a,
        b_boundary: problem.boundary.b,
        num_stationary: problem.num_stationary,
    };
    copp::copp3::formulation::lend_thermal_weights(problem.thermal);
    copp3_socp_expert_with_info(&lent, options)?;
    Ok(solver::take_given())
}
