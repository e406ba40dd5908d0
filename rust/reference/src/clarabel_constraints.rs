//! Shared constraint assembly, from copp's `clarabel_constraints.rs`.
//!
//! Clarabel's form: `s = b - A*x in K`, written as `A*x - b = -s`.

use crate::Problem;
use crate::clarabel_backend::SupportedConeT::{NonnegativeConeT, ZeroConeT};
use crate::clarabel_backend::{ConstraintsClarabel, Indices};
use crate::copp3_socp::CoppError;

/// The lent tables, with the place in them where each station's block begins.
pub struct Topp3Problem<'a> {
    pub tables: &'a Problem<'a>,
    acc_start: Vec<usize>,
    jerk_start: Vec<usize>,
}

/// Acceleration block of a station: `(acc_a, acc_b, acc_max)`.
type AccBlock<'a> = (&'a [f64], &'a [f64], &'a [f64]);

/// Jerk block of a station: `(jerk_a_linear, jerk_b, jerk_c, jerk_max_linear)`.
type JerkBlock<'a> = (&'a [f64], &'a [f64], &'a [f64], &'a [f64]);

fn block_starts(rows: &[u32]) -> Vec<usize> {
    let mut starts = Vec::with_capacity(rows.len() + 1);
    let mut at = 0;
    starts.push(at);
    for &nrows in rows {
        at += nrows as usize;
        starts.push(at);
    }
    starts
}

impl<'a> Topp3Problem<'a> {
    pub fn new(tables: &'a Problem<'a>) -> Self {
        Self {
            tables,
            acc_start: block_starts(tables.acc_rows),
            jerk_start: block_starts(tables.jerk_rows),
        }
    }

    fn acc_constraints_unchecked(&self, k: usize) -> AccBlock<'a> {
        let block = self.acc_start[k]..self.acc_start[k + 1];
        let t = self.tables;
        (
            &t.acc_a[block.clone()],
            &t.acc_b[block.clone()],
            &t.acc_max[block],
        )
    }

    fn jerk_linear_constraints_unchecked(&self, k: usize) -> JerkBlock<'a> {
        let block = self.jerk_start[k]..self.jerk_start[k + 1];
        let t = self.tables;
        (
            &t.jerk_a[block.clone()],
            &t.jerk_b[block.clone()],
            &t.jerk_c[block.clone()],
            &t.jerk_max[block],
        )
    }

    fn amax_unchecked(&self, k: usize) -> f64 {
        self.tables.amax[k]
    }

    /// The lent bounds `(amax, amin)` of the start, or with `REVERSE` of the end.
    fn stationary_constraint_topp3<const REVERSE: bool>(&self) -> (f64, f64) {
        let bounds = if REVERSE {
            self.tables.end
        } else {
            self.tables.start
        };
        (bounds.maximum, bounds.minimum)
    }
}

/// Assemble the standard TOPP3 feasibility constraints.
pub fn clarabel_standard_constraint_topp3(
    problem: &Topp3Problem,
    s: &[f64],
    constraints: ConstraintsClarabel,
    num_stationary: (usize, usize),
) -> Result<(), CoppError> {
    let n = s.len() - 1;
    let (row, col, val, b, cones) = constraints;
    // Step 1. Boundary constraints
    clarabel_boundary_constraint_topp3(
        n,
        problem.tables.boundary.a,
        problem.tables.boundary.b,
        (row, col, val, b, cones),
        false,
    );
    // Step 2. Dynamic constraints
    clarabel_dynamic_constraint_topp3(s, num_stationary, (row, col, val, b, cones), false);
    cones.push(ZeroConeT(b.len()));
    let n_b_old = b.len();
    // Step 3. first-order constraints
    if !clarabel_1order_constraint_topp3(
        problem,
        s,
        num_stationary,
        (row, col, val, b, cones),
        false,
    ) {
        return Err(CoppError::Infeasible);
    }
    // Step 4. continuous-interval first-order constraints
    clarabel_interval_a_constraint_topp3(s, num_stationary, (row, col, val, b, cones), false);
    // Step 5. second-order constraints
    clarabel_2order_constraint_topp3(problem, s, num_stationary, (row, col, val, b, cones), false);
    // Step 6. third-order constraints
    clarabel_3order_constraint_topp3(problem, s, num_stationary, (row, col, val, b, cones), false);
    cones.push(NonnegativeConeT(b.len() - n_b_old));
    Ok(())
}

/// Append third-order jerk-linear constraints.
pub fn clarabel_3order_constraint_topp3(
    problem: &Topp3Problem,
    s: &[f64],
    num_stationary: (usize, usize),
    constraints: ConstraintsClarabel,
    modify_cones: bool,
) {
    let (row, col, val, b, cones) = constraints;
    let n_b_old = b.len();
    let n = s.len() - 1;

    for k in (num_stationary.0)..=(n - num_stationary.1) {
        let (jerk_a_linear, jerk_b, jerk_c, jerk_max_linear) =
            problem.jerk_linear_constraints_unchecked(k);
        let nrows = jerk_a_linear.len();

        if k > num_stationary.0 {
            // jerk_a_linear * a[k] - jerk_c / ds * b[k-1] + (jerk_b + jerk_c / ds) * b[k] <= jerk_max_linear
            let ds_down = 1.0 / (s[k] - s[k - 1]);
            row.extend_range(b.len()..(b.len() + nrows));
            row.extend_range(b.len()..(b.len() + nrows));
            row.extend_range(b.len()..(b.len() + nrows));
            col.resize_with_index(col.len() + nrows, k);
            col.resize_with_index(col.len() + nrows, n + k);
            col.resize_with_index(col.len() + nrows, n + k + 1);
            val.extend(jerk_a_linear.iter());
            val.extend(jerk_c.iter().map(|&c_coeff| -c_coeff * ds_down));
            val.extend(
                jerk_b
                    .iter()
                    .zip(jerk_c.iter())
                    .map(|(&b_coeff, &c_coeff)| b_coeff + c_coeff * ds_down),
            );
            b.extend(jerk_max_linear.iter());
        }

        if k < n - num_stationary.1 {
            // jerk_a_linear * a[k] + (jerk_b - jerk_c / ds) * b[k] + jerk_c / ds * b[k+1] <= jerk_max_linear
            let ds_down = 1.0 / (s[k + 1] - s[k]);
            row.extend_range(b.len()..(b.len() + nrows));
            row.extend_range(b.len()..(b.len() + nrows));
            row.extend_range(b.len()..(b.len() + nrows));
            col.resize_with_index(col.len() + nrows, k);
            col.resize_with_index(col.len() + nrows, n + k + 1);
            col.resize_with_index(col.len() + nrows, n + k + 2);
            val.extend(jerk_a_linear.iter());
            val.extend(
                jerk_b
                    .iter()
                    .zip(jerk_c.iter())
                    .map(|(&b_coeff, &c_coeff)| b_coeff - c_coeff * ds_down),
            );
            val.extend(jerk_c.iter().map(|&c_coeff| c_coeff * ds_down));
            b.extend(jerk_max_linear.iter());
        }
    }

    if modify_cones {
        cones.push(NonnegativeConeT(b.len() - n_b_old));
    }
}

/// Append second-order acceleration constraints on moving intervals.
pub fn clarabel_2order_constraint_topp3(
    problem: &Topp3Problem,
    s: &[f64],
    num_stationary: (usize, usize),
    constraints: ConstraintsClarabel,
    modify_cones: bool,
) {
    let (row, col, val, b, cones) = constraints;
    let n_b_old = b.len();
    let n = s.len() - 1;
    for k in (num_stationary.0 + 1)..(n - num_stationary.1) {
        let (acc_a, acc_b, acc_max) = problem.acc_constraints_unchecked(k);
        let nrows = acc_a.len();
        // acc_a * a[k] + acc_b * b[k] <= acc_max
        row.extend_range(b.len()..(b.len() + nrows));
        row.extend_range(b.len()..(b.len() + nrows));
        col.resize_with_index(col.len() + nrows, k);
        col.resize_with_index(col.len() + nrows, n + k + 1);
        val.extend(acc_a.iter());
        val.extend(acc_b.iter());
        b.extend(acc_max.iter());
    }
    if modify_cones {
        cones.push(NonnegativeConeT(b.len() - n_b_old));
    }
}

/// Append first-order bounds with stationary-endpoint handling.
///
/// Returns `false` when stationary-endpoint bounds are infeasible.
pub fn clarabel_1order_constraint_topp3(
    problem: &Topp3Problem,
    s: &[f64],
    num_stationary: (usize, usize),
    constraints: ConstraintsClarabel,
    modify_cones: bool,
) -> bool {
    let (row, col, val, b, cones) = constraints;
    let n_b_old = b.len();
    let n = s.len() - 1;
    if num_stationary.0 > 0 {
        let (amax_stationary, amin_stationary) = problem.stationary_constraint_topp3::<false>();
        // amin_stationary <= a[num_stationary.0] <= amax_stationary
        if amax_stationary < amin_stationary {
            return false;
        }
        if amax_stationary.is_finite() {
            row.push_index(b.len());
            col.push_index(num_stationary.0);
            val.push(1.0);
            b.push(amax_stationary);
        }
        row.push_index(b.len());
        col.push_index(num_stationary.0);
        val.push(-1.0);
        b.push(-amin_stationary);
    }
    if num_stationary.1 > 0 {
        let (amax_stationary, amin_stationary) = problem.stationary_constraint_topp3::<true>();
        // amin_stationary <= a[n - num_stationary.1] <= amax_stationary
        if amax_stationary < amin_stationary {
            return false;
        }
        let id_a = n - num_stationary.1;
        if amax_stationary.is_finite() {
            row.push_index(b.len());
            col.push_index(id_a);
            val.push(1.0);
            b.push(amax_stationary);
        }
        row.push_index(b.len());
        col.push_index(id_a);
        val.push(-1.0);
        b.push(-amin_stationary);
    }
    // 0 <= a[k] for k in (num_stationary.0+1) .. (n - num_stationary.1)
    let n_b_here = n - num_stationary.1 - num_stationary.0 - 1;
    row.extend_range(b.len()..(b.len() + n_b_here));
    col.extend_range((num_stationary.0 + 1)..(n - num_stationary.1));
    val.resize(val.len() + n_b_here, -1.0);
    b.resize(b.len() + n_b_here, 0.0);
    // a[k] <= amax[k], where amax[k] is finite
    let amax_constraint: Vec<(usize, f64)> = ((num_stationary.0 + 1)..(n - num_stationary.1))
        .filter_map(|k| {
            let amax_curr = problem.amax_unchecked(k);
            if amax_curr.is_finite() {
                Some((k, amax_curr))
            } else {
                None
            }
        })
        .collect();
    row.extend_range(b.len()..(b.len() + amax_constraint.len()));
    col.extend(amax_constraint.iter().map(|(col_, _)| *col_ as u64));
    val.resize(val.len() + amax_constraint.len(), 1.0);
    b.extend(amax_constraint.iter().map(|(_, b_)| *b_));

    if modify_cones {
        cones.push(NonnegativeConeT(b.len() - n_b_old));
    }
    true
}

/// Append continuous-interval first-order constraints on moving intervals.
pub fn clarabel_interval_a_constraint_topp3(
    s: &[f64],
    num_stationary: (usize, usize),
    constraints: ConstraintsClarabel,
    modify_cones: bool,
) {
    let (row, col, val, b, cones) = constraints;
    let n_b_old = b.len();
    let n = s.len() - 1;

    for k in num_stationary.0..(n - num_stationary.1) {
        let ds = s[k + 1] - s[k];
        // 2*a[k] + ds*b[k] >= 0
        row.resize_with_index(row.len() + 2, b.len());
        col.extend_each([k, n + k + 1]);
        val.extend([-2.0, -ds]);
        b.push(0.0);

        // 2*a[k] + 2*ds*b[k] + ds*b[k+1] >= 0
        row.resize_with_index(row.len() + 3, b.len());
        col.extend_each([k, n + k + 1, n + k + 2]);
        val.extend([-2.0, -2.0 * ds, -ds]);
        b.push(0.0);
    }

    if modify_cones {
        cones.push(NonnegativeConeT(b.len() - n_b_old));
    }
}

/// Append boundary equalities for `a` and `b` as zero-cone rows.
pub fn clarabel_boundary_constraint_topp3(
    n: usize,
    a_boundary: (f64, f64),
    b_boundary: (f64, f64),
    constraints: ConstraintsClarabel,
    modify_cones: bool,
) {
    let (row, col, val, b, cones) = constraints;
    row.extend_range(b.len()..(b.len() + 4));
    col.extend_each([0, n, n + 1, 2 * n + 1]);
    val.resize(val.len() + 4, 1.0);
    b.extend([a_boundary.0, a_boundary.1, b_boundary.0, b_boundary.1]);
    if modify_cones {
        cones.push(ZeroConeT(4));
    }
}

/// Append dynamic equalities for both stationary and moving intervals.
pub fn clarabel_dynamic_constraint_topp3(
    s: &[f64],
    num_stationary: (usize, usize),
    constraints: ConstraintsClarabel,
    modify_cones: bool,
) {
    let (row, col, val, b, cones) = constraints;
    let n_b_old = b.len();
    if num_stationary.0 > 0 {
        clarabel_dynamic_stationary_topp3(s, num_stationary.0, false, (row, col, val, b, cones));
    }
    if num_stationary.1 > 0 {
        clarabel_dynamic_stationary_topp3(s, num_stationary.1, true, (row, col, val, b, cones));
    }
    clarabel_dynamic_moving_topp3(s, num_stationary, (row, col, val, b, cones));
    if modify_cones {
        cones.push(ZeroConeT(b.len() - n_b_old));
    }
}

/// Append dynamic equality for one stationary boundary interval.
pub fn clarabel_dynamic_stationary_topp3(
    s: &[f64],
    num_stationary: usize,
    reverse: bool,
    constraints: ConstraintsClarabel,
) {
    let (row, col, val, b, _) = constraints;
    let n = s.len() - 1;
    let (id_a, s_start) = if reverse {
        (n - num_stationary, s.last().unwrap())
    } else {
        (num_stationary, s.first().unwrap())
    };
    // a[num_stationary] - 1.5*(s[id_a] - s_start)* b[num_stationary] == 0
    let coeff = -1.5 * (s[id_a] - s_start);
    row.resize_with_index(row.len() + 2, b.len());
    col.extend_each([id_a, n + 1 + id_a]);
    val.extend([1.0, coeff]);
    b.push(0.0);
}

/// Append dynamic equalities for moving intervals.
pub fn clarabel_dynamic_moving_topp3(
    s: &[f64],
    num_stationary: (usize, usize),
    constraints: ConstraintsClarabel,
) {
    let (row, col, val, b, _) = constraints;
    // a[k] - a[k+1] + ds[k]*b[k] + ds[k]*b[k+1] = 0
    // for k in num_stationary.0 .. n - num_stationary.1
    let n = s.len() - 1;
    let n_b_here = n - num_stationary.0 - num_stationary.1;
    row.extend_range(b.len()..(b.len() + n_b_here));
    row.extend_range(b.len()..(b.len() + n_b_here));
    row.extend_range(b.len()..(b.len() + n_b_here));
    row.extend_range(b.len()..(b.len() + n_b_here));
    col.extend_range(num_stationary.0..(num_stationary.0 + n_b_here));
    col.extend_range((num_stationary.0 + 1)..(num_stationary.0 + n_b_here + 1));
    col.extend_range((n + num_stationary.0 + 1)..(n + num_stationary.0 + n_b_here + 1));
    col.extend_range((n + num_stationary.0 + 2)..(n + num_stationary.0 + n_b_here + 2));
    val.resize(val.len() + n_b_here, 1.0);
    val.resize(val.len() + n_b_here, -1.0);
    val.extend(
        s.windows(2)
            .skip(num_stationary.0)
            .take(n_b_here)
            .map(|s_pair| s_pair[1] - s_pair[0]),
    );
    val.extend(
        s.windows(2)
            .skip(num_stationary.0)
            .take(n_b_here)
            .map(|s_pair| s_pair[1] - s_pair[0]),
    );
    b.resize(b.len() + n_b_here, 0.0);
}

/// Estimate allocation capacities `(val, b, cones)` for the standard constraints.
pub fn clarabel_standard_capacity_topp3(problem: &Problem) -> (usize, usize, usize) {
    let n = problem.grid.len() - 1;
    let count_acc_constraints: usize = problem.acc_rows.iter().map(|&rows| rows as usize).sum();
    let count_jerk_constraints: usize = problem.jerk_rows.iter().map(|&rows| rows as usize).sum();
    let capacity_val = 2 + 11 * n + 2 * count_acc_constraints + 6 * count_jerk_constraints;
    let capacity_b = 2 + 5 * n + count_acc_constraints + 2 * count_jerk_constraints;
    (capacity_val, capacity_b, 2)
}
