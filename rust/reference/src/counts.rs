//! Document 01's counts, demand 3's facts and request 6's ranges, to check what the assembly
//! has produced.
//!
//! Nothing here is used to produce it.

use crate::{Assembled, Objective, Problem};

/// The four numbers that sizing answers.
#[derive(Clone, Copy, Debug, Default, PartialEq, Eq)]
pub struct Counts {
    pub entries: usize,
    pub rows: usize,
    pub cones: usize,
    pub columns: usize,
}

impl Counts {
    fn new(entries: usize, rows: usize, cones: usize, columns: usize) -> Self {
        Self {
            entries,
            rows,
            cones,
            columns,
        }
    }

    pub fn numbers(self) -> [usize; 4] {
        [self.entries, self.rows, self.cones, self.columns]
    }

    fn add(&mut self, more: Self) {
        self.entries += more.entries;
        self.rows += more.rows;
        self.cones += more.cones;
        self.columns += more.columns;
    }
}

/// Document 01's letters for a problem that passes refusals 1 to 18.
struct Letters {
    n: usize,
    m: usize,
    p: usize,
    l: usize,
    d: usize,
    u: usize,
    a_inner: usize,
    j_inner: usize,
    root: bool,
}

fn letters(problem: &Problem) -> Letters {
    let (n0, n1) = problem.num_stationary;
    let n = problem.grid.len() - 1;
    let maxima = [(n0, problem.start.maximum), (n1, problem.end.maximum)];
    let inner = n0 + 1..n - n1;
    let u = maxima
        .iter()
        .filter(|(count, maximum)| *count > 0 && maximum.is_finite())
        .count()
        + problem.amax[inner.clone()]
            .iter()
            .filter(|amax| amax.is_finite())
            .count();
    let sum = |rows: &[u32]| rows.iter().map(|&rows| rows as usize).sum::<usize>();
    let jerk = |k: usize| problem.jerk_rows[k] as usize;
    Letters {
        n,
        m: n - n0 - n1,
        p: usize::from(n0 > 0) + usize::from(n1 > 0),
        l: n + 1 - n0.max(1) - n1.max(1),
        d: problem.d,
        u,
        a_inner: sum(&problem.acc_rows[inner.clone()]),
        j_inner: 2 * sum(&problem.jerk_rows[inner]) + jerk(n0) + jerk(n - n1),
        root: problem.objectives[..problem.count].iter().any(|objective| {
            matches!(
                objective,
                Objective::Time(..) | Objective::ThermalEnergy(..)
            )
        }),
    }
}

/// What each owner has by document 01's formulas: standard rows, root stage, objectives.
///
/// The columns of a and b belong to none.
fn owners_by_formula(problem: &Problem) -> Vec<Counts> {
    let letters = letters(problem);
    let l = letters.l;
    let root = if letters.root {
        Counts::new(4 * l, 4 * l, 1 + l, l)
    } else {
        Counts::default()
    };
    let objectives = problem.objectives[..problem.count].iter();
    [standard_by_formula(&letters), root]
        .into_iter()
        .chain(objectives.map(|objective| objective_by_formula(&letters, objective)))
        .collect()
}

fn standard_by_formula(letters: &Letters) -> Counts {
    let Letters {
        m,
        p,
        u,
        a_inner,
        j_inner,
        ..
    } = *letters;
    Counts::new(
        3 + 3 * p + 10 * m + u + 2 * a_inner + 3 * j_inner,
        3 + 2 * p + 4 * m + u + a_inner + j_inner,
        2,
        0,
    )
}

fn objective_by_formula(letters: &Letters, objective: &Objective) -> Counts {
    let Letters { m, p, l, d, .. } = *letters;
    match objective {
        Objective::Time(..) => Counts::new(5 * l, 4 * l, 1 + l, l),
        Objective::ThermalEnergy(..) => {
            Counts::new((4 + 2 * d) * (p + l), (2 + d) * (p + l), p + l, p + l)
        }
        Objective::TotalVariationTorque(..) => {
            Counts::new(6 * d * p + 10 * d * m, 2 * d * (p + m), 1, d * (p + m))
        }
        Objective::Linear(..) => Counts::default(),
    }
}

/// The columns of a and b.
fn columns_of_none(problem: &Problem) -> Counts {
    Counts::new(0, 0, 0, 2 * problem.grid.len())
}

/// The four counts by document 01's formulas.
pub fn by_formula(problem: &Problem) -> Counts {
    let mut counts = columns_of_none(problem);
    for owner in owners_by_formula(problem) {
        counts.add(owner);
    }
    counts
}

/// Document 01's bound on the entries.
pub fn entry_bound(problem: &Problem) -> usize {
    let Letters { n, d, root, .. } = letters(problem);
    let sum = |rows: &[u32]| rows.iter().map(|&rows| rows as usize).sum::<usize>();
    let mut bound = 2 + 11 * n + 2 * sum(problem.acc_rows) + 6 * sum(problem.jerk_rows);
    if root {
        bound += 4 * n;
    }
    for objective in &problem.objectives[..problem.count] {
        bound += match objective {
            Objective::Time(..) => 5 * n,
            Objective::ThermalEnergy(..) => (4 + 2 * d) * (n + 1),
            Objective::TotalVariationTorque(..) => 10 * d * n,
            Objective::Linear(..) => 0,
        };
    }
    bound
}

/// Demand 3's closed-form facts about an assembled problem; an error names the one that fails.
pub fn check_facts(problem: &Problem, assembled: &Assembled) -> Result<(), String> {
    let counts = assembled.counts();
    let formula = by_formula(problem);
    if counts != formula {
        return Err(format!("lengths {counts:?}, formulas {formula:?}"));
    }
    if assembled.row.len() != counts.entries || assembled.col.len() != counts.entries {
        return Err("rows, columns and values differ in length".into());
    }
    let bound = entry_bound(problem);
    if counts.entries > bound {
        return Err(format!(
            "{} entries above the bound {bound}",
            counts.entries
        ));
    }
    let dims: u64 = assembled.cones.dims.iter().sum();
    if dims != counts.rows as u64 {
        return Err(format!("cones of {dims} rows, {} rows", counts.rows));
    }
    check_positions(assembled, counts)?;
    check_owners(problem, assembled)
}

/// The owners' ranges follow each other without gap or overlap, from 0 and, for columns, from
/// 2n + 2 up to the counts, each as long as its formulas say.
fn check_owners(problem: &Problem, assembled: &Assembled) -> Result<(), String> {
    let owners = owners_by_formula(problem);
    if assembled.index.len() != 8 * owners.len() {
        return Err(format!("an index of {} numbers", assembled.index.len()));
    }
    let mut tally = columns_of_none(problem);
    for (owner, (noted, formula)) in assembled.index.chunks(8).zip(owners).enumerate() {
        let expected = [tally.numbers(), formula.numbers()].concat();
        if !noted.iter().zip(&expected).all(|(&a, &b)| a == b as u64) {
            return Err(format!("owner {owner}: {noted:?}, expected {expected:?}"));
        }
        check_entries(assembled, noted).map_err(|fault| format!("owner {owner}: {fault}"))?;
        tally.add(formula);
    }
    if tally != assembled.counts() {
        return Err(format!("the owners' ranges end at {tally:?}"));
    }
    Ok(())
}

/// The entries of an owner lie in its rows, and its cones have just these rows.
fn check_entries(assembled: &Assembled, noted: &[u64]) -> Result<(), String> {
    let range = |sort: usize| noted[sort] as usize..(noted[sort] + noted[sort + 4]) as usize;
    let (entries, rows, cones) = (range(0), noted[1]..noted[1] + noted[5], range(2));
    let mut found = assembled.row[entries].iter();
    if let Some(row) = found.find(|row| !rows.contains(row)) {
        return Err(format!("an entry at row {row}, its rows are {rows:?}"));
    }
    let dims: u64 = assembled.cones.dims[cones].iter().sum();
    if dims != rows.end - rows.start {
        return Err(format!("cones of {dims} rows, its rows are {rows:?}"));
    }
    Ok(())
}

/// Every entry names an existing row and column, and no position is named twice.
///
/// Positions are counted through row by row; there are far fewer than 2^64.
fn check_positions(assembled: &Assembled, counts: Counts) -> Result<(), String> {
    let (rows, columns) = (counts.rows as u64, counts.columns as u64);
    let mut positions = Vec::with_capacity(counts.entries);
    for (&row, &col) in assembled.row.iter().zip(&assembled.col) {
        if row >= rows || col >= columns {
            return Err(format!("entry at row {row}, column {col} is outside"));
        }
        positions.push(row * columns + col);
    }
    positions.sort_unstable();
    match positions.windows(2).find(|pair| pair[0] == pair[1]) {
        Some(pair) => Err(format!(
            "row {}, column {} is named twice",
            pair[0] / columns,
            pair[0] % columns
        )),
        None => Ok(()),
    }
}
