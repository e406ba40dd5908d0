//! Stand-in for copp's constraints; what they answer is lent.

use crate::Column;
use crate::diag::CoppError;
use reference::Problem;

/// The lent tables, with the place in them where each station's block begins.
pub struct Constraints<'a> {
    pub lent: &'a Problem<'a>,
    acc: Vec<usize>,
    jerk: Vec<usize>,
}

fn starts(rows: &[u32]) -> Vec<usize> {
    let mut at = 0;
    let mut starts = vec![at];
    for &nrows in rows {
        at += nrows as usize;
        starts.push(at);
    }
    starts
}

type AccBlock<'a> = (Column<'a>, Column<'a>, Column<'a>);
type JerkBlock<'a> = (Column<'a>, Column<'a>, Column<'a>, Column<'a>);

impl<'a> Constraints<'a> {
    pub fn new(lent: &'a Problem<'a>) -> Self {
        Self {
            lent,
            acc: starts(lent.acc_rows),
            jerk: starts(lent.jerk_rows),
        }
    }

    pub fn s_vec(&self, from: usize, to: usize) -> Result<Vec<f64>, CoppError> {
        Ok(self.lent.grid[from..to].to_vec())
    }

    pub fn count_rows_acc(&self, from: usize, to: usize) -> usize {
        self.acc[to] - self.acc[from]
    }

    pub fn count_rows_jerk(&self, from: usize, to: usize) -> usize {
        self.jerk[to] - self.jerk[from]
    }

    pub fn amax_unchecked(&self, k: usize) -> f64 {
        self.lent.amax[k]
    }

    pub fn acc_constraints_unchecked(&self, k: usize) -> AccBlock<'a> {
        let block = self.acc[k]..self.acc[k + 1];
        let column = |table: &'a [f64]| Column(&table[block.clone()]);
        let lent = self.lent;
        (column(lent.acc_a), column(lent.acc_b), column(lent.acc_max))
    }

    pub fn jerk_linear_constraints_unchecked(&self, k: usize) -> JerkBlock<'a> {
        let block = self.jerk[k]..self.jerk[k + 1];
        let column = |table: &'a [f64]| Column(&table[block.clone()]);
        let lent = self.lent;
        (
            column(lent.jerk_a),
            column(lent.jerk_b),
            column(lent.jerk_c),
            column(lent.jerk_max),
        )
    }

    /// The lent bounds `(amax, amin)` of the start, or with `REV` of the end.
    pub fn stationary_constraint_topp3<const REV: bool>(
        &self,
        _: &[f64],
        _: usize,
        _: usize,
    ) -> (f64, f64) {
        let bounds = if REV { self.lent.end } else { self.lent.start };
        (bounds.maximum, bounds.minimum)
    }
}
