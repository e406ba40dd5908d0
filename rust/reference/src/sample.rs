//! Owned problems for tests: tables by document 01's numbers, and its ledger cases.

use crate::{Boundary, Bounds, Objective, Part, Problem};

/// A problem that owns what it would be lent.
#[derive(Clone, Debug)]
pub struct Sample {
    pub boundary: Boundary,
    pub start: Bounds,
    pub end: Bounds,
    pub d: usize,
    pub num_stationary: (usize, usize),
    pub count: usize,
    pub objectives: Vec<Objective>,
    pub grid: Vec<f64>,
    /// Tables 0 and 1.
    pub rows: [Vec<u32>; 2],
    /// Tables 2 to 15.
    pub tables: [Vec<f64>; 14],
    pub pool: Vec<f64>,
}

impl Sample {
    /// The ledger's usual problem on the grid 0, 1, .. n, without objectives.
    ///
    /// The torque tables are those of dimension `d`; there are no acceleration and jerk rows.
    pub fn plain(n: usize, num_stationary: (usize, usize), d: usize) -> Self {
        let stations = n + 1;
        let zeros = |len: usize| vec![0.0; len];
        let mut tables: [Vec<f64>; 14] = Default::default();
        tables[0] = vec![f64::INFINITY; stations];
        tables[8] = zeros(stations);
        for table in &mut tables[9..12] {
            *table = zeros(d * stations);
        }
        tables[12] = zeros(num_stationary.0.max(1) - 1);
        tables[13] = zeros(num_stationary.1.max(1) - 1);
        let unbounded = Bounds {
            maximum: f64::INFINITY,
            minimum: 0.0,
        };
        Self {
            boundary: Boundary {
                a: (0.0, 0.0),
                b: (0.0, 0.0),
            },
            start: unbounded,
            end: unbounded,
            d,
            num_stationary,
            count: 0,
            objectives: vec![],
            grid: (0..stations).map(|k| k as f64).collect(),
            rows: [vec![0; stations], vec![0; stations]],
            tables,
            pool: vec![],
        }
    }

    /// Table 2 to 15.
    pub fn table(&self, number: usize) -> &[f64] {
        &self.tables[number - 2]
    }

    pub fn table_mut(&mut self, number: usize) -> &mut Vec<f64> {
        &mut self.tables[number - 2]
    }

    /// Appends a list to the pool.
    pub fn list(&mut self, numbers: &[f64]) -> Part {
        let start = self.pool.len();
        self.pool.extend_from_slice(numbers);
        Part {
            start,
            len: numbers.len(),
        }
    }

    pub fn with(mut self, objective: Objective) -> Self {
        self.objectives.push(objective);
        self.count = self.objectives.len();
        self
    }

    pub fn with_time(self, weight: f64) -> Self {
        self.with(Objective::Time(weight))
    }

    pub fn with_thermal(mut self, weight: f64, scales: &[f64]) -> Self {
        let scales = self.list(scales);
        self.with(Objective::ThermalEnergy(weight, scales))
    }

    pub fn with_variation(mut self, weight: f64, scales: &[f64]) -> Self {
        let scales = self.list(scales);
        self.with(Objective::TotalVariationTorque(weight, scales))
    }

    pub fn with_linear(mut self, weight: f64, alpha: &[f64], beta: &[f64]) -> Self {
        let (alpha, beta) = (self.list(alpha), self.list(beta));
        self.with(Objective::Linear(weight, alpha, beta))
    }

    /// The problem as it is lent.
    pub fn problem(&self) -> Problem<'_> {
        Problem {
            boundary: self.boundary,
            start: self.start,
            end: self.end,
            d: self.d,
            num_stationary: self.num_stationary,
            count: self.count,
            objectives: &self.objectives,
            grid: &self.grid,
            acc_rows: &self.rows[0],
            jerk_rows: &self.rows[1],
            amax: self.table(2),
            acc_a: self.table(3),
            acc_b: self.table(4),
            acc_max: self.table(5),
            jerk_a: self.table(6),
            jerk_b: self.table(7),
            jerk_c: self.table(8),
            jerk_max: self.table(9),
            thermal: self.table(10),
            torque_a: self.table(11),
            torque_b: self.table(12),
            torque_g: self.table(13),
            start_roots: self.table(14),
            end_roots: self.table(15),
            pool: &self.pool,
        }
    }
}

/// Document 01's ledger: each case with the line that it has to print.
pub fn ledger() -> Vec<(Sample, &'static str)> {
    let time = |n, ends| Sample::plain(n, ends, 1).with_time(1.0);
    let mut i = time(2, (0, 0));
    i.table_mut(2)[1] = 4.0;
    let mut k = time(1, (0, 0));
    k.boundary.a.0 = -1.0;
    let mut l = time(2, (0, 0));
    l.grid = vec![0.0, 1.0, 1.0];
    let mut m = time(2, (0, 0));
    m.rows[1] = vec![1; 3];
    for number in 6..=9 {
        *m.table_mut(number) = vec![0.0; 3];
    }
    vec![
        (time(2, (0, 0)), "A 32 19 6 8"),
        (time(2, (0, 0)).with_time(1.0), "B 37 23 8 9"),
        (time(3, (1, 1)), "C 37 27 8 12"),
        (time(3, (1, 2)), "D refused 14 0"),
        (
            Sample::plain(2, (0, 0), 1).with_variation(1.0, &[1.0]),
            "E 43 15 3 8",
        ),
        (
            Sample::plain(2, (0, 0), 1).with_thermal(1.0, &[1.0]),
            "F 33 18 5 8",
        ),
        (
            Sample::plain(3, (1, 0), 2).with_thermal(1.0, &[1.0; 2]),
            "G 58 33 8 13",
        ),
        (
            Sample::plain(2, (0, 0), 1).with_linear(1.0, &[0.0; 3], &[0.0; 3]),
            "H 23 11 2 6",
        ),
        (i, "I 33 20 6 8"),
        (
            Sample::plain(2, (0, 0), 1).with_time(f64::NAN),
            "J refused 11 0",
        ),
        (k, "K refused 2 0"),
        (l, "L refused 7 2"),
        (m, "M 44 23 6 8"),
        (time(1, (0, 0)), "N refused 4 0"),
    ]
}

/// The ledger line for an answer of sizing.
pub fn ledger_line(name: &str, answer: Result<crate::Counts, crate::Refusal>) -> String {
    match answer {
        Ok(c) => format!("{name} {} {} {} {}", c.entries, c.rows, c.cones, c.columns),
        Err(refusal) => format!("{name} refused {} {}", refusal.number, refusal.place),
    }
}
