//! Root stage, objectives and the core that calls them, from copp's `copp3_socp.rs`.
//!
//! The decision vector is `x = [a[0..=n], b[0..=n], xi (if any), x_others]`.

use crate::clarabel_backend::SupportedConeT::{NonnegativeConeT, SecondOrderConeT};
use crate::clarabel_backend::{Cones, ConstraintsClarabel, Indices, ObjConsClarabel};
use crate::clarabel_constraints::{
    Topp3Problem, clarabel_standard_capacity_topp3, clarabel_standard_constraint_topp3,
};
use crate::formulation::get_weight_a_topp3;
use crate::index::Index;
use crate::objectives::{CoppObjective, copp_objectives};
use crate::{Counts, Problem};

/// Where the published assemblers stop.
#[derive(Clone, Copy, Debug, PartialEq, Eq)]
pub enum CoppError {
    Infeasible,
    InvalidInput,
}

/// Whether the vectors begin with room, as in the published Rust, or empty.
#[derive(Clone, Copy, Debug, PartialEq, Eq)]
pub enum Reserve {
    AsPublished,
    Nothing,
}

/// What the core holds just before `CscMatrix::new_from_triplets`.
#[derive(Clone, Debug)]
pub struct Assembled {
    pub row: Vec<u64>,
    pub col: Vec<u64>,
    pub val: Vec<f64>,
    pub b: Vec<f64>,
    pub cones: Cones,
    pub q_object: Vec<f64>,
    /// Eight numbers for each owner, see `index`.
    pub index: Vec<u64>,
}

impl Assembled {
    pub fn counts(&self) -> Counts {
        tally(&self.val, &self.b, &self.cones, self.q_object.len())
    }
}

/// Core of the published flow, from its capacities to its last push.
pub fn copp3_socp_core(problem: &Problem, reserve: Reserve) -> Result<Assembled, CoppError> {
    let s = problem.grid;
    let n = s.len() - 1;
    let num_stationary = problem.num_stationary;
    let objectives = copp_objectives(problem);
    let (cap_val, cap_b, cap_cone, n_vars) = match reserve {
        Reserve::AsPublished => {
            let (val_std, b_std, cone_std) = clarabel_standard_capacity_topp3(problem);
            let (val_obj, b_obj, cone_obj, n_vars) =
                clarabel_objective_capacity_copp3(n, &objectives, problem.d);
            (
                val_std + val_obj,
                b_std + b_obj,
                cone_std + cone_obj,
                n_vars,
            )
        }
        Reserve::Nothing => (0, 0, 0, 0),
    };
    let mut row = Vec::<u64>::with_capacity(cap_val);
    let mut col = Vec::<u64>::with_capacity(cap_val);
    let mut val = Vec::<f64>::with_capacity(cap_val);
    let mut b = Vec::<f64>::with_capacity(cap_b);
    let mut cones = Cones::with_capacity(cap_cone);
    let mut index = Index::default();
    let start = tally(&val, &b, &cones, 2 * (n + 1));
    // Step 1. constraints of the standard problem
    clarabel_standard_constraint_topp3(
        &Topp3Problem::new(problem),
        s,
        (&mut row, &mut col, &mut val, &mut b, &mut cones),
        num_stationary,
    )?;
    let standard = tally(&val, &b, &cones, 2 * (n + 1));
    index.note(start, standard);
    // Step 2.1. determine whether xi=sqrt(a) is needed
    let n_var_old = clarabel_sqrt_a_copp3(
        n,
        &objectives,
        (&mut row, &mut col, &mut val, &mut b, &mut cones),
        num_stationary,
    );
    index.note(standard, tally(&val, &b, &cones, n_var_old));
    let mut q_object = Vec::<f64>::with_capacity(n_vars);
    q_object.resize(n_var_old, 0.0);
    // Step 2.2. add constraints and objective for each term in the objective
    clarabel_objective_copp3(
        problem,
        &objectives,
        num_stationary,
        (
            &mut row,
            &mut col,
            &mut val,
            &mut b,
            &mut cones,
            &mut q_object,
        ),
        &mut index,
    )?;
    Ok(Assembled {
        row,
        col,
        val,
        b,
        cones,
        q_object,
        index: index.into_numbers(),
    })
}

/// How much there is of everything; the columns of a and b are there from the beginning.
fn tally(val: &[f64], b: &[f64], cones: &Cones, columns: usize) -> Counts {
    Counts {
        entries: val.len(),
        rows: b.len(),
        cones: cones.len(),
        columns,
    }
}

/// Determine the length of xi[k] = sqrt(a[k + k_skip]) in the decision variable x.
pub fn length_xi(n: usize, num_stationary: (usize, usize)) -> usize {
    n + 1 - num_stationary.0.max(1) - num_stationary.1.max(1)
}

/// Return k_skip, where xi[k] = sqrt(a[k + k_skip])
pub fn skip_a_for_xi(num_stationary_start: usize) -> usize {
    num_stationary_start.max(1)
}

/// Add the constraints sqrt(a[k]) >= xi[k] >= 0, once for all objectives.
///
/// Return the len of the new x.
pub fn clarabel_sqrt_a_copp3(
    n: usize,
    objective: &[CoppObjective],
    constraints: ConstraintsClarabel,
    num_stationary: (usize, usize),
) -> usize {
    let (row, col, val, b, cones) = constraints;
    for obj in objective {
        match obj {
            CoppObjective::Time(_) | CoppObjective::ThermalEnergy(_, _) => {
                let n_skip = skip_a_for_xi(num_stationary.0);
                let len_xi = length_xi(n, num_stationary); // < n
                // xi >= 0
                row.extend_range(b.len()..b.len() + len_xi);
                col.extend_range((2 * (n + 1))..(2 * (n + 1) + len_xi));
                val.resize(val.len() + len_xi, -1.0);
                b.resize(b.len() + len_xi, 0.0);
                cones.push(NonnegativeConeT(len_xi));
                // xi^2 + (a - 0.25)^2 <= (a + 0.25)^2
                row.extend_range(b.len()..b.len() + 3 * len_xi);
                val.resize(val.len() + 3 * len_xi, -1.0);
                cones.resize(cones.len() + len_xi, SecondOrderConeT(3));
                for k in 0..len_xi {
                    col.extend_each([k + n_skip, k + n_skip, 2 * (n + 1) + k]);
                    b.extend([0.25, -0.25, 0.0]);
                }
                return 2 * (n + 1) + len_xi;
            }
            _ => {}
        }
    }
    2 * (n + 1)
}

/// Determine the capacities `(val, b, cones, n_vars)` for the objectives.
///
/// As published, `n_vars` leaves out the xi columns: a figure to reserve by, not to size by.
pub fn clarabel_objective_capacity_copp3(
    n: usize,
    objective: &[CoppObjective],
    dim: usize,
) -> (usize, usize, usize, usize) {
    // Step 1. sqrt(a[k]) >= xi[k] >= 0
    let (mut capacity_val, mut capacity_b, mut capacity_cones, mut n_vars) =
        if objective.iter().any(|obj| {
            matches!(
                obj,
                CoppObjective::Time(_) | CoppObjective::ThermalEnergy(_, _)
            )
        }) {
            (4 * n, 4 * n, n, 2 * (n + 1))
        } else {
            (0, 0, 0, 2 * (n + 1))
        };
    // Step 2. objective function
    for obj in objective {
        match obj {
            CoppObjective::Time(_) => {
                capacity_val += 5 * n;
                capacity_b += 4 * n;
                capacity_cones += n;
                n_vars += n;
            }
            CoppObjective::ThermalEnergy(_, _) => {
                capacity_val += (4 + 2 * dim) * (n + 1);
                capacity_b += (dim + 2) * (n + 1);
                capacity_cones += n + 1;
                n_vars += n + 1;
            }
            CoppObjective::TotalVariationTorque(_, _) => {
                capacity_val += 10 * dim * n;
                capacity_b += 2 * dim * n;
                capacity_cones += 1;
                n_vars += dim * n;
            }
            _ => {}
        }
    }
    (capacity_val, capacity_b, capacity_cones, n_vars)
}

/// Lent torque coefficients with `dim` rows; a column is a station.
pub struct TorqueCoeffs<'a> {
    dim: usize,
    a: &'a [f64],
    b: &'a [f64],
    g: &'a [f64],
}

/// A copy of a coefficient table, each row multiplied by its scale.
struct Scaled {
    dim: usize,
    numbers: Vec<f64>,
}

impl Scaled {
    /// `column_iter_mut` with `component_mul_assign`.
    fn new(numbers: &[f64], normalize: &[f64]) -> Self {
        let dim = normalize.len();
        let mut numbers = numbers.to_vec();
        for col in numbers.chunks_exact_mut(dim) {
            for (number, scale) in col.iter_mut().zip(normalize) {
                *number *= scale;
            }
        }
        Self { dim, numbers }
    }

    fn ncols(&self) -> usize {
        self.numbers.len() / self.dim
    }

    fn column(&self, k: usize) -> &[f64] {
        &self.numbers[k * self.dim..(k + 1) * self.dim]
    }
}

/// Add the constraints and objective for each term, in order.
pub fn clarabel_objective_copp3(
    problem: &Problem,
    objectives: &[CoppObjective],
    num_stationary: (usize, usize),
    objective_constraints: ObjConsClarabel,
    index: &mut Index,
) -> Result<(), CoppError> {
    let (row, col, val, b, cones, q_object) = objective_constraints;
    let s = problem.grid;
    let weight_a_time = if objectives
        .iter()
        .any(|obj| matches!(obj, CoppObjective::Time(_)))
    {
        get_weight_a_topp3(s, num_stationary)
    } else {
        vec![]
    };
    let weight_a_torque = problem.thermal;
    let coeffs_torque = TorqueCoeffs {
        dim: problem.d,
        a: problem.torque_a,
        b: problem.torque_b,
        g: problem.torque_g,
    };
    for obj in objectives {
        let before = tally(val, b, cones, q_object.len());
        let valid = match *obj {
            CoppObjective::Time(weight) => clarabel_objective_time_copp3(
                s,
                weight,
                &weight_a_time,
                num_stationary,
                (row, col, val, b, cones, q_object),
            ),
            CoppObjective::ThermalEnergy(weight, normalize) => {
                clarabel_objective_thermal_energy_copp3(
                    weight_a_torque,
                    weight,
                    normalize,
                    &coeffs_torque,
                    num_stationary,
                    (row, col, val, b, cones, q_object),
                )
            }
            CoppObjective::TotalVariationTorque(weight, normalize) => {
                clarabel_objective_tv_torque_copp3(
                    weight,
                    normalize,
                    &coeffs_torque,
                    num_stationary,
                    (row, col, val, b, cones, q_object),
                )
            }
            CoppObjective::Linear(weight, alpha, beta) => clarabel_objective_linear_copp3(
                s,
                weight,
                (alpha, beta),
                (problem.start_roots, problem.end_roots),
                q_object,
                num_stationary,
            ),
        };
        if !valid {
            return Err(CoppError::InvalidInput);
        }
        index.note(before, tally(val, b, cones, q_object.len()));
    }
    Ok(())
}

/// Add the constraints and objective for Time in COPP3 optimization.
pub fn clarabel_objective_time_copp3(
    s: &[f64],
    weight: f64,
    weight_a: &[f64],
    num_stationary: (usize, usize),
    objective_constraints: ObjConsClarabel,
) -> bool {
    if weight < 0.0 {
        return false;
    }

    let (row, col, val, b, cones, q_object) = objective_constraints;
    let n = s.len() - 1;
    let len_xi = length_xi(n, num_stationary);
    let k_skip = skip_a_for_xi(num_stationary.0);
    // xi[k]=sqrt(a[k+k_skip]), eta[k]=1/xi[k]
    let id_xi_start = 2 * (n + 1);
    let id_eta_start = q_object.len();
    // Step 1. eta[k] >= 0
    row.extend_range(b.len()..(b.len() + len_xi));
    col.extend_range(id_eta_start..(id_eta_start + len_xi));
    val.resize(val.len() + len_xi, -1.0);
    b.resize(b.len() + len_xi, 0.0);
    cones.push(NonnegativeConeT(len_xi));
    // Step 2. norm2([2, xi[k] - eta[k]]) <= xi[k] + eta[k]
    // -A*x+b = s = [xi[k] + eta[k], xi[k] - eta[k], 2] \in SOC
    for k in 0..len_xi {
        col.extend_each([
            id_xi_start + k,
            id_eta_start + k,
            id_xi_start + k,
            id_eta_start + k,
        ]);
        row.extend_each([b.len(), b.len(), b.len() + 1, b.len() + 1]);
        val.extend([-1.0, -1.0, -1.0, 1.0]);
        b.extend([0.0, 0.0, 2.0]);
    }
    cones.resize(cones.len() + len_xi, SecondOrderConeT(3));
    // Minimize sum[k in 0..len_xi] {weight_a[k+k_skip] * eta[k]}
    q_object.extend(
        weight_a
            .iter()
            .skip(k_skip)
            .take(len_xi)
            .map(|w| weight * w),
    );

    true
}

/// Add the constraints and objective for ThermalEnergy in COPP3 optimization.
pub fn clarabel_objective_thermal_energy_copp3(
    weight_a: &[f64],
    weight: f64,
    normalize: &[f64],
    coeffs_torque: &TorqueCoeffs,
    num_stationary: (usize, usize),
    objective_constraints: ObjConsClarabel,
) -> bool {
    if weight < 0.0 {
        return false;
    }
    let (row, col, val, b, cones, q_object) = objective_constraints;
    let dim = coeffs_torque.dim;
    if normalize.len() != dim {
        return false;
    }
    // tau[i][k] * normalize[i] = coeff_a[i][k] * a[k] + coeff_b[i][k] * b[k] + coeff_g[i][k]
    let coeff_a = Scaled::new(coeffs_torque.a, normalize);
    let coeff_b = Scaled::new(coeffs_torque.b, normalize);
    let coeff_g = Scaled::new(coeffs_torque.g, normalize);
    let n = coeff_a.ncols() - 1;
    let k_skip = skip_a_for_xi(num_stationary.0);
    let len_xi = length_xi(n, num_stationary);

    if num_stationary.0 > 0 {
        // minimize: weight * weight_a[0] * \sum[i] { tau_average[i]^2 / xi[0] }
        let col_a = coeff_a.column(num_stationary.0);
        let col_b = coeff_b.column(num_stationary.0);
        let col_g = coeff_g.column(num_stationary.0);
        let col_g_0 = coeff_g.column(0);
        let id_t = q_object.len();
        // -A*x+b = [t + xi[0], t - xi[0]]
        row.extend_range(b.len()..(b.len() + 2));
        col.resize_with_index(col.len() + 2, id_t);
        row.extend_range(b.len()..(b.len() + 2));
        col.resize_with_index(col.len() + 2, 2 * (n + 1));
        val.resize(val.len() + 3, -1.0);
        val.push(1.0);
        b.resize(b.len() + 2, 0.0);
        // -A*x+b = [-(col_a[i] * a + col_b[i] * b + col_g[i] + col_g_0[i])] for i in 0..dim
        row.extend_range((b.len())..(b.len() + dim));
        col.resize_with_index(col.len() + dim, num_stationary.0);
        val.extend(col_a.iter().take(dim));
        row.extend_range((b.len())..(b.len() + dim));
        col.resize_with_index(col.len() + dim, n + 1 + num_stationary.0);
        val.extend(col_b.iter().take(dim));
        b.extend(
            col_g
                .iter()
                .zip(col_g_0.iter())
                .take(dim)
                .map(|(&g, &g_0)| -(g + g_0)),
        );
        cones.push(SecondOrderConeT(dim + 2));
        q_object.push(weight * weight_a[0]);
    }
    if num_stationary.1 > 0 {
        // minimize: weight * weight_a[n] * \sum[i] { tau_average[i]^2 / xi[len_xi-1] }
        let col_a = coeff_a.column(n - num_stationary.1);
        let col_b = coeff_b.column(n - num_stationary.1);
        let col_g = coeff_g.column(n - num_stationary.1);
        let col_g_f = coeff_g.column(n);
        let id_t = q_object.len();
        // -A*x+b = [t+xi[len_xi-1], t-xi[len_xi-1]]
        row.extend_range(b.len()..(b.len() + 2));
        col.resize_with_index(col.len() + 2, id_t);
        row.extend_range(b.len()..(b.len() + 2));
        col.resize_with_index(col.len() + 2, 2 * n + len_xi + 1);
        val.resize(val.len() + 3, -1.0);
        val.push(1.0);
        b.resize(b.len() + 2, 0.0);
        // -A*x+b = [-(col_a[i] * a + col_b[i] * b + col_g[i] + col_g_f[i])] for i in 0..dim
        row.extend_range((b.len())..(b.len() + dim));
        col.resize_with_index(col.len() + dim, n - num_stationary.1);
        val.extend(col_a.iter().take(dim));
        row.extend_range((b.len())..(b.len() + dim));
        col.resize_with_index(col.len() + dim, 2 * n + 1 - num_stationary.1);
        val.extend(col_b.iter().take(dim));
        b.extend(
            col_g
                .iter()
                .zip(col_g_f.iter())
                .take(dim)
                .map(|(&g, &g_f)| -(g + g_f)),
        );
        cones.push(SecondOrderConeT(dim + 2));
        q_object.push(weight * weight_a[n]);
    }

    // minimize: weight * \sum[k] { \sum[i] {tau_normal[i][k]^2} / sqrt(a[k]) * weight_a[k] }
    let id_t_start = q_object.len();
    for k in 0..len_xi {
        let col_a = coeff_a.column(k + k_skip);
        let col_b = coeff_b.column(k + k_skip);
        let col_g = coeff_g.column(k + k_skip);
        // -A*x+b = s = [t[k] + xi[k], t[k] - xi[k]]
        row.extend_range(b.len()..(b.len() + 2));
        col.resize_with_index(col.len() + 2, id_t_start + k);
        row.extend_range(b.len()..(b.len() + 2));
        col.resize_with_index(col.len() + 2, 2 * (n + 1) + k);
        val.resize(val.len() + 3, -1.0);
        val.push(1.0);
        b.resize(b.len() + 2, 0.0);
        // -A*x+b = s = [-(col_a[i] * a[k+k_skip] + col_b[i] * b[k+k_skip] + col_g[i])]
        row.extend_range((b.len())..(b.len() + dim));
        col.resize_with_index(col.len() + dim, k + k_skip);
        val.extend(col_a.iter().take(dim));
        row.extend_range((b.len())..(b.len() + dim));
        col.resize_with_index(col.len() + dim, n + 1 + k + k_skip);
        val.extend(col_b.iter().take(dim));
        b.extend(col_g.iter().take(dim).map(|&g| -g));
    }
    cones.resize(cones.len() + len_xi, SecondOrderConeT(dim + 2));
    let weight_four = 4.0 * weight;
    q_object.extend(
        weight_a
            .iter()
            .skip(k_skip)
            .take(len_xi)
            .map(|w| weight_four * w),
    );
    true
}

/// Add the constraints and objective for TotalVariationTorque in COPP3 optimization.
pub fn clarabel_objective_tv_torque_copp3(
    weight: f64,
    normalize: &[f64],
    coeffs_torque: &TorqueCoeffs,
    num_stationary: (usize, usize),
    objective_constraints: ObjConsClarabel,
) -> bool {
    if weight < 0.0 {
        return false;
    }
    let (row, col, val, b, cones, q_object) = objective_constraints;
    let dim = coeffs_torque.dim;
    if normalize.len() != dim {
        return false;
    }
    // tau[i][k] * normalize[i] = coeff_a[i][k] * a[k] + coeff_b[i][k] * b[k] + coeff_g[i][k]
    let coeff_a = Scaled::new(coeffs_torque.a, normalize);
    let coeff_b = Scaled::new(coeffs_torque.b, normalize);
    let coeff_g = Scaled::new(coeffs_torque.g, normalize);
    let n = coeff_a.ncols() - 1;

    let n_b_old = b.len();
    if num_stationary.0 > 0 {
        // (tau[i][num_stationary.0] - tau[i][0]) * normalize[i]
        let col_a = coeff_a.column(num_stationary.0);
        let col_b = coeff_b.column(num_stationary.0);
        let col_g = coeff_g.column(num_stationary.0);
        let col_g_0 = coeff_g.column(0);
        let n_var_old = q_object.len();
        for i in 0..dim {
            let (v_a, v_b, v_g, v_g_0) = (col_a[i], col_b[i], col_g[i], col_g_0[i]);
            row.resize_with_index(row.len() + 3, b.len());
            col.extend_each([num_stationary.0, n + num_stationary.0 + 1, n_var_old + i]);
            val.extend([v_a, v_b, -1.0]);
            b.push(v_g - v_g_0);
            row.resize_with_index(row.len() + 3, b.len());
            col.extend_each([num_stationary.0, n + num_stationary.0 + 1, n_var_old + i]);
            val.extend([-v_a, -v_b, -1.0]);
            b.push(v_g_0 - v_g);
        }
        q_object.resize(q_object.len() + dim, weight);
    }

    if num_stationary.1 > 0 {
        // (tau[i][n-num_stationary.1] - tau[i][n]) * normalize[i]
        let col_a = coeff_a.column(n - num_stationary.1);
        let col_b = coeff_b.column(n - num_stationary.1);
        let col_g = coeff_g.column(n - num_stationary.1);
        let col_g_f = coeff_g.column(n);
        let n_var_old = q_object.len();
        for i in 0..dim {
            let (v_a, v_b, v_g, v_g_f) = (col_a[i], col_b[i], col_g[i], col_g_f[i]);
            row.resize_with_index(row.len() + 3, b.len());
            col.extend_each([
                n - num_stationary.1,
                n + n - num_stationary.1 + 1,
                n_var_old + i,
            ]);
            val.extend([v_a, v_b, -1.0]);
            b.push(v_g - v_g_f);
            row.resize_with_index(row.len() + 3, b.len());
            col.extend_each([
                n - num_stationary.1,
                n + n - num_stationary.1 + 1,
                n_var_old + i,
            ]);
            val.extend([-v_a, -v_b, -1.0]);
            b.push(v_g_f - v_g);
        }
        q_object.resize(q_object.len() + dim, weight);
    }

    // (tau[i][k+1] - tau[i][k]) * normalize[i] for k in num_stationary.0..(n-num_stationary.1)
    for k in num_stationary.0..(n - num_stationary.1) {
        let (col_a_curr, col_a_next) = (coeff_a.column(k), coeff_a.column(k + 1));
        let (col_b_curr, col_b_next) = (coeff_b.column(k), coeff_b.column(k + 1));
        let (col_g_curr, col_g_next) = (coeff_g.column(k), coeff_g.column(k + 1));
        let n_var_old = q_object.len();
        for i in 0..dim {
            let (v_a_curr, v_a_next) = (col_a_curr[i], col_a_next[i]);
            let (v_b_curr, v_b_next) = (col_b_curr[i], col_b_next[i]);
            let (v_g_curr, v_g_next) = (col_g_curr[i], col_g_next[i]);
            row.resize_with_index(row.len() + 5, b.len());
            col.extend_each([k, k + 1, n + k + 1, n + k + 2, n_var_old + i]);
            val.extend([-v_a_curr, v_a_next, -v_b_curr, v_b_next, -1.0]);
            b.push(v_g_next - v_g_curr);
            row.resize_with_index(row.len() + 5, b.len());
            col.extend_each([k, k + 1, n + k + 1, n + k + 2, n_var_old + i]);
            val.extend([v_a_curr, -v_a_next, v_b_curr, -v_b_next, -1.0]);
            b.push(v_g_curr - v_g_next);
        }
        q_object.resize(q_object.len() + dim, weight);
    }
    cones.push(NonnegativeConeT(b.len() - n_b_old));

    true
}

/// Add the objective for Linear in COPP3 optimization.
///
/// `lists` are alpha and beta, `roots` the lent cube roots of the start and of the end.
pub fn clarabel_objective_linear_copp3(
    s: &[f64],
    weight: f64,
    lists: (&[f64], &[f64]),
    roots: (&[f64], &[f64]),
    q_object: &mut [f64],
    num_stationary: (usize, usize),
) -> bool {
    let (alpha, beta) = lists;
    if alpha.len() != s.len() || beta.len() != s.len() {
        return false;
    }
    let n = s.len() - 1;
    // objective: minimize weight * \sum (alpha[k]*a[k] + beta[k]*b[k])
    if num_stationary.0 > 1 {
        let &s_start = s.first().unwrap();
        let ds_start = s[num_stationary.0] - s_start;
        let q_n1 = &mut q_object[num_stationary.0];
        for k in 1..num_stationary.0 {
            let (s_k, alpha_k, beta_k) = (s[k], alpha[k], beta[k]);
            let dsk_start = s_k - s_start;
            let gamma = dsk_start / ds_start;
            let gamma_cbrt = roots.0[k - 1];
            *q_n1 += weight * gamma * gamma_cbrt * (alpha_k + beta_k / (1.5 * dsk_start));
        }
    }
    if num_stationary.1 > 1 {
        let &s_final = s.last().unwrap();
        let ds_final = s[n - num_stationary.1] - s_final;
        let q_n2 = &mut q_object[n - num_stationary.1];
        // The published loop walks stations 1 to num_stationary.1 - 1, not those before n.
        for k in 1..num_stationary.1 {
            let (s_k, alpha_k, beta_k) = (s[k], alpha[k], beta[k]);
            let dsk_final = s_k - s_final;
            let gamma = dsk_final / ds_final;
            let gamma_cbrt = roots.1[k - 1];
            *q_n2 += weight * gamma * gamma_cbrt * (alpha_k + beta_k / (1.5 * dsk_final));
        }
    }
    for (q_k, &alpha_k) in q_object
        .iter_mut()
        .zip(alpha.iter())
        .take(n + 1 - num_stationary.1)
        .skip(num_stationary.0)
    {
        *q_k += weight * alpha_k;
    }
    for (q_k, &beta_k) in q_object
        .iter_mut()
        .skip(n + 1)
        .zip(beta.iter())
        .take(n + 1 - num_stationary.1)
        .skip(num_stationary.0)
    {
        *q_k += weight * beta_k;
    }

    true
}
