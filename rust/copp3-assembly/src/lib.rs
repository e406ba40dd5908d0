//! Cone rows for third-order path timing: a safe wrapper over the static library.
//!
//! A [`Problem`] borrows the grid and the tables of document 01. [`size`] tells
//! how long the output will be, [`assemble_into`] writes it into lent buffers,
//! and [`assemble`] does both into vectors of just the right lengths. Whatever
//! is lent, the answer is an assembled problem or a [`Refusal`].
//!
//! The output is in Clarabel's form: A·z + slack = right side, the slack in the
//! product of the cones, rows in cone order. Beside it stands an index, from which
//! [`owner_of_row`] and [`owner_of_column`] tell whose a row or a column is.

mod owner;
pub mod raw;
mod refusal;

use raw::{Answer, Job, Record, Records, Tables};
use std::ops::Range;

pub use owner::{Owner, index_places, owner_of_column, owner_of_row};
pub use raw::Buffers;
pub use refusal::{End, Refusal, TABLES};

/// The states at both ends of the path.
#[repr(C)]
#[derive(Clone, Copy, Debug, Default)]
pub struct Boundary {
    pub initial_a: f64,
    pub terminal_a: f64,
    pub initial_b: f64,
    pub terminal_b: f64,
}

/// The bounds of `a` behind a stationary end; not read where the end's count is 0.
#[repr(C)]
#[derive(Clone, Copy, Debug)]
pub struct Bounds {
    pub maximum: f64,
    pub minimum: f64,
}

impl Default for Bounds {
    /// At least 0, with no upper bound.
    fn default() -> Self {
        Self {
            maximum: f64::INFINITY,
            minimum: 0.0,
        }
    }
}

/// A part of the pool, from `start` on.
#[derive(Clone, Copy, Debug, PartialEq, Eq)]
pub struct Part {
    pub start: usize,
    pub len: usize,
}

impl From<Range<usize>> for Part {
    fn from(range: Range<usize>) -> Self {
        Self {
            start: range.start,
            len: range.end.saturating_sub(range.start),
        }
    }
}

/// An objective with its weight and the parts of the pool that hold its lists.
#[derive(Clone, Copy, Debug)]
pub enum Objective {
    Time {
        weight: f64,
    },
    /// `scales` has one number for each of the `d` torques.
    ThermalEnergy {
        weight: f64,
        scales: Part,
    },
    /// `scales` has one number for each of the `d` torques.
    TotalVariationTorque {
        weight: f64,
        scales: Part,
    },
    /// `alpha` and `beta` have one number for each station.
    Linear {
        weight: f64,
        alpha: Part,
        beta: Part,
    },
}

impl From<Objective> for Record {
    fn from(objective: Objective) -> Self {
        let none = Part { start: 0, len: 0 };
        let (kind, weight, first, second) = match objective {
            Objective::Time { weight } => (0, weight, none, none),
            Objective::ThermalEnergy { weight, scales } => (1, weight, scales, none),
            Objective::TotalVariationTorque { weight, scales } => (2, weight, scales, none),
            Objective::Linear {
                weight,
                alpha,
                beta,
            } => (3, weight, alpha, beta),
        };
        Record {
            kind,
            weight,
            start: first.start,
            len: first.len,
            start2: second.start,
            len2: second.len,
        }
    }
}

/// What the assembly takes, save the buffers. `n` is the number of the last station.
#[derive(Clone, Copy, Debug)]
pub struct Problem<'a> {
    pub boundary: Boundary,
    /// Bounds behind the stationary start and end.
    pub start: Bounds,
    pub end: Bounds,
    /// Number of torques.
    pub d: usize,
    /// Stationary counts of the start and of the end.
    pub n0: usize,
    pub n1: usize,
    pub objectives: &'a [Objective],
    /// n + 1 rising numbers.
    pub grid: &'a [f64],
    /// Tables 0 and 1: acceleration and jerk rows of each station.
    pub acc_rows: &'a [u32],
    pub jerk_rows: &'a [u32],
    /// Table 2: upper bound of `a` at each station, plus infinity for none.
    pub amax: &'a [f64],
    /// Tables 3 to 5: one number for each acceleration row, station by station.
    pub acc_a: &'a [f64],
    pub acc_b: &'a [f64],
    pub acc_max: &'a [f64],
    /// Tables 6 to 9: one number for each jerk row, station by station.
    pub jerk_a: &'a [f64],
    pub jerk_b: &'a [f64],
    pub jerk_c: &'a [f64],
    pub jerk_max: &'a [f64],
    /// Table 10, with ThermalEnergy: a weight for each station.
    pub thermal: &'a [f64],
    /// Tables 11 to 13, with ThermalEnergy or TotalVariationTorque: d numbers for each station.
    pub torque_a: &'a [f64],
    pub torque_b: &'a [f64],
    pub torque_g: &'a [f64],
    /// Tables 14 and 15, with Linear: cube roots, one less than the end's count.
    pub start_roots: &'a [f64],
    pub end_roots: &'a [f64],
    /// The numbers of the objectives' lists.
    pub pool: &'a [f64],
}

impl<'a> Problem<'a> {
    fn job(&self) -> Job {
        Job {
            boundary: self.boundary,
            start: self.start,
            end: self.end,
            d: self.d,
            n0: self.n0,
            n1: self.n1,
            count: self.objectives.len(),
        }
    }

    /// The first sixteen; the library refuses more by their count alone.
    fn records(&self) -> Records {
        let mut records = Records::default();
        for (record, &objective) in records.items.iter_mut().zip(self.objectives) {
            *record = objective.into();
        }
        records
    }

    fn tables(&self) -> Tables<'a> {
        Tables {
            grid: self.grid,
            acc_rows: self.acc_rows,
            jerk_rows: self.jerk_rows,
            amax: self.amax,
            acc_a: self.acc_a,
            acc_b: self.acc_b,
            acc_max: self.acc_max,
            jerk_a: self.jerk_a,
            jerk_b: self.jerk_b,
            jerk_c: self.jerk_c,
            jerk_max: self.jerk_max,
            thermal: self.thermal,
            torque_a: self.torque_a,
            torque_b: self.torque_b,
            torque_g: self.torque_g,
            start_roots: self.start_roots,
            end_roots: self.end_roots,
            pool: self.pool,
        }
    }
}

/// How much an accepted problem writes.
#[derive(Clone, Copy, Debug, PartialEq, Eq)]
pub struct Counts {
    pub entries: usize,
    pub rows: usize,
    pub cones: usize,
    pub columns: usize,
}

fn counts(answer: Answer) -> Result<Counts, Refusal> {
    if answer.number != 0 {
        return Err(Refusal::new(answer.number, answer.place));
    }
    Ok(Counts {
        entries: answer.entries as usize,
        rows: answer.rows as usize,
        cones: answer.cones as usize,
        columns: answer.columns as usize,
    })
}

/// Cone kinds as they are written.
#[derive(Clone, Copy, Debug, PartialEq, Eq)]
pub enum ConeKind {
    Zero,
    Nonnegative,
    SecondOrder,
}

impl ConeKind {
    pub fn new(kind: u8) -> Option<Self> {
        match kind {
            0 => Some(Self::Zero),
            1 => Some(Self::Nonnegative),
            2 => Some(Self::SecondOrder),
            _ => None,
        }
    }
}

/// An assembled problem in vectors of just the right lengths.
#[derive(Clone, Debug, Default)]
pub struct Assembly {
    /// Row, column and value of each entry of A.
    pub rows: Vec<u64>,
    pub columns: Vec<u64>,
    pub values: Vec<f64>,
    pub right: Vec<f64>,
    /// Kind and dimension of each cone.
    pub kinds: Vec<u8>,
    pub dimensions: Vec<u64>,
    pub cost: Vec<f64>,
    /// Eight numbers for each owner: first entry, row, cone and column, then how many of each.
    pub index: Vec<u64>,
}

impl Assembly {
    /// Empty vectors with room for so much, and for the index of so many objectives.
    pub fn with_room(counts: Counts, objectives: usize) -> Self {
        Self {
            rows: Vec::with_capacity(counts.entries),
            columns: Vec::with_capacity(counts.entries),
            values: Vec::with_capacity(counts.entries),
            right: Vec::with_capacity(counts.rows),
            kinds: Vec::with_capacity(counts.cones),
            dimensions: Vec::with_capacity(counts.cones),
            cost: Vec::with_capacity(counts.columns),
            index: Vec::with_capacity(index_places(objectives)),
        }
    }

    /// The whole vectors as lent buffers.
    pub fn buffers(&mut self) -> Buffers<'_> {
        Buffers {
            rows: &mut self.rows,
            columns: &mut self.columns,
            values: &mut self.values,
            right: &mut self.right,
            kinds: &mut self.kinds,
            dimensions: &mut self.dimensions,
            cost: &mut self.cost,
            index: &mut self.index,
        }
    }

    /// Kind and dimension of each cone, in row order.
    pub fn cones(&self) -> impl Iterator<Item = (Option<ConeKind>, u64)> + '_ {
        let kinds = self.kinds.iter().map(|&kind| ConeKind::new(kind));
        kinds.zip(self.dimensions.iter().copied())
    }

    /// The number of objectives, by the index's length.
    fn objectives(&self) -> usize {
        (self.index.len() / 8).saturating_sub(2)
    }

    /// Whose a row is.
    pub fn owner_of_row(&self, row: usize) -> Result<Owner, Refusal> {
        owner_of_row(&self.index, self.objectives(), row)
    }

    /// Whose a column is; those of a and b have no owner.
    pub fn owner_of_column(&self, column: usize) -> Result<Owner, Refusal> {
        owner_of_column(&self.index, self.objectives(), column)
    }
}

/// Tells how much the assembly would write, or every refusal tested before the buffers.
pub fn size(problem: &Problem) -> Result<Counts, Refusal> {
    counts(raw::size(
        problem.job(),
        problem.records(),
        &problem.tables(),
    ))
}

/// Assembles into lent buffers, from place 0 of each; nothing past the counts changes.
///
/// The index needs [`index_places`] of the number of objectives. A refusal changes no byte of
/// any buffer.
pub fn assemble_into(problem: &Problem, out: &mut Buffers) -> Result<Counts, Refusal> {
    counts(raw::assemble(
        problem.job(),
        problem.records(),
        &problem.tables(),
        out,
    ))
}

/// Sizes, then assembles into vectors of just these lengths.
pub fn assemble(problem: &Problem) -> Result<Assembly, Refusal> {
    let mut out = Assembly::with_room(size(problem)?, problem.objectives.len());
    counts(raw::assemble_reserved(
        problem.job(),
        problem.records(),
        &problem.tables(),
        &mut out,
    ))?;
    Ok(out)
}
