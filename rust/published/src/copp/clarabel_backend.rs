//! The vectors that the published functions pass on.

use crate::solver::SupportedConeT;

/// (row, col, val, b, cones)
pub(crate) type ConstraintsClarabel<'a> = (
    &'a mut Vec<usize>,
    &'a mut Vec<usize>,
    &'a mut Vec<f64>,
    &'a mut Vec<f64>,
    &'a mut Vec<SupportedConeT<f64>>,
);

/// (row, col, val, b, cones, q_object)
pub(crate) type ObjConsClarabel<'a> = (
    &'a mut Vec<usize>,
    &'a mut Vec<usize>,
    &'a mut Vec<f64>,
    &'a mut Vec<f64>,
    &'a mut Vec<SupportedConeT<f64>>,
    &'a mut Vec<f64>,
);
