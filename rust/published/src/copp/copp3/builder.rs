//! What the published `formulation.rs` does before and beside the assembly: a check of its problem
//! builder, and the thermal weights that are lent here. The assembly asks for neither.

use crate::diag::CoppError;

include!("builder_excerpt.rs");

/// The builder's check of stationary counts.
pub fn builder_lets_by(stations: usize, num_stationary: (usize, usize)) -> bool {
    check_num_station_intervals("copp3_socp", stations, num_stationary).is_ok()
}

/// Table 10 as copp would fill it.
pub fn thermal_weights(s: &[f64], num_stationary: (usize, usize)) -> Vec<f64> {
    get_weight_a_copp3(s, num_stationary)
}
