//! Objective terms with their lists as slices, as in copp's `objectives.rs`.

use crate::{Objective, Part, Problem};

/// Objective terms for COPP optimization.
#[derive(Clone, Copy)]
pub enum CoppObjective<'a> {
    Time(f64),
    ThermalEnergy(f64, &'a [f64]),
    TotalVariationTorque(f64, &'a [f64]),
    Linear(f64, &'a [f64], &'a [f64]),
}

/// The objectives with the parts of the pool that they name.
pub fn copp_objectives<'a>(problem: &Problem<'a>) -> Vec<CoppObjective<'a>> {
    let list = |part: Part| -> &'a [f64] { &problem.pool[part.start..part.start + part.len] };
    problem.objectives[..problem.count]
        .iter()
        .map(|objective| match *objective {
            Objective::Time(weight) => CoppObjective::Time(weight),
            Objective::ThermalEnergy(weight, scales) => {
                CoppObjective::ThermalEnergy(weight, list(scales))
            }
            Objective::TotalVariationTorque(weight, scales) => {
                CoppObjective::TotalVariationTorque(weight, list(scales))
            }
            Objective::Linear(weight, alpha, beta) => {
                CoppObjective::Linear(weight, list(alpha), list(beta))
            }
        })
        .collect()
}
