//! The refusals of documents 01 and 02, read from the documents and from nothing else.
//!
//! Numbers 1 to 18 are judged on the problem, 19 on seven lengths, 28 on the length
//! of the index and 20 on the numbers that the assembly has produced.

use crate::{Assembled, Bounds, Counts, Objective, Part, Problem};

/// A refusal's number and its place, 0 where none is named.
#[derive(Clone, Copy, Debug, PartialEq, Eq)]
pub struct Refusal {
    pub number: u64,
    pub place: u64,
}

type Check = Result<(), Refusal>;

fn refuse<T>(number: u64, place: usize) -> Result<T, Refusal> {
    let place = place as u64;
    Err(Refusal { number, place })
}

/// Refuses at the first place that has the fault.
fn first(number: u64, mut faults: impl Iterator<Item = bool>) -> Check {
    match faults.position(|fault| fault) {
        Some(place) => refuse(number, place),
        None => Ok(()),
    }
}

/// Refusals 1 to 18, in the order in which they are tested.
pub fn before_buffers(problem: &Problem) -> Check {
    boundary(problem)?;
    grid(problem.grid)?;
    set_up(problem)?;
    for index in 0..problem.count {
        objective(problem, index)?;
    }
    stationary_counts(problem)?;
    row_counts(problem)?;
    table_lengths(problem)?;
    bounds(problem)
}

/// 1 not finite, 2 a below 0, 3 a zero with b leaving the path.
fn boundary(problem: &Problem) -> Check {
    let (a, b) = (problem.boundary.a, problem.boundary.b);
    let numbers = [a.0, a.1, b.0, b.1];
    first(1, numbers.iter().map(|number| !number.is_finite()))?;
    first(2, [a.0 < 0.0, a.1 < 0.0].into_iter())?;
    let leaves_start = a.0 == 0.0 && b.0 < 0.0;
    let leaves_end = a.1 == 0.0 && b.1 > 0.0;
    first(3, [leaves_start, leaves_end].into_iter())
}

/// 4 and 5 the number of stations, 6 not finite, 7 not above the one before.
fn grid(grid: &[f64]) -> Check {
    if grid.len() < 3 {
        return refuse(4, 0);
    }
    if grid.len() > 65_537 {
        return refuse(5, 0);
    }
    first(6, grid.iter().map(|s| !s.is_finite()))?;
    first(7, (0..grid.len()).map(|k| k > 0 && grid[k] <= grid[k - 1]))
}

/// 8 dimension, 9 and 10 the number of objectives.
fn set_up(problem: &Problem) -> Check {
    if !(1..=32).contains(&problem.d) {
        return refuse(8, 0);
    }
    match problem.count {
        0 => refuse(9, 0),
        1..=16 => Ok(()),
        _ => refuse(10, 0),
    }
}

/// NaN, infinite or negative; minus zero counts as zero.
fn not_a_weight(number: f64) -> bool {
    !number.is_finite() || number < 0.0
}

/// 11 weight, 12 lists, 13 scales, of one objective.
fn objective(problem: &Problem, index: usize) -> Check {
    let stations = problem.grid.len();
    let (weight, lists) = match problem.objectives[index] {
        Objective::Time(weight) => (weight, vec![]),
        Objective::ThermalEnergy(weight, scales)
        | Objective::TotalVariationTorque(weight, scales) => (weight, vec![(scales, problem.d)]),
        Objective::Linear(weight, alpha, beta) => {
            (weight, vec![(alpha, stations), (beta, stations)])
        }
    };
    if not_a_weight(weight) {
        return refuse(11, index);
    }
    let past_pool = |part: Part| part.start as u128 + part.len as u128 > problem.pool.len() as u128;
    if lists
        .iter()
        .any(|&(part, len)| part.len != len || past_pool(part))
    {
        return refuse(12, index);
    }
    if let Objective::ThermalEnergy(_, scales) | Objective::TotalVariationTorque(_, scales) =
        problem.objectives[index]
    {
        let scales = &problem.pool[scales.start..scales.start + scales.len];
        if scales.iter().any(|&scale| not_a_weight(scale)) {
            return refuse(13, index);
        }
    }
    Ok(())
}

/// 14 the stationary stretches leave nothing between them.
fn stationary_counts(problem: &Problem) -> Check {
    let (n0, n1) = problem.num_stationary;
    let n = problem.grid.len() - 1;
    if n0 as u128 + n1 as u128 >= n as u128 {
        return refuse(14, 0);
    }
    Ok(())
}

/// 15 of tables 0 and 1, then 16.
fn row_counts(problem: &Problem) -> Check {
    let stations = problem.grid.len();
    if problem.acc_rows.len() != stations {
        return refuse(15, 0);
    }
    if problem.jerk_rows.len() != stations {
        return refuse(15, 1);
    }
    first(16, problem.acc_rows.iter().map(|&rows| rows > 256))?;
    first(16, problem.jerk_rows.iter().map(|&rows| rows > 256))
}

/// 15 of tables 2 to 15; a table that doesn't count may have any length.
fn table_lengths(problem: &Problem) -> Check {
    let has =
        |wanted: fn(&Objective) -> bool| problem.objectives[..problem.count].iter().any(wanted);
    let thermal = has(|objective| matches!(objective, Objective::ThermalEnergy(..)));
    let variation = has(|objective| matches!(objective, Objective::TotalVariationTorque(..)));
    let linear = has(|objective| matches!(objective, Objective::Linear(..)));
    let torque = thermal || variation;

    let stations = problem.grid.len();
    let sum = |rows: &[u32]| rows.iter().map(|&rows| rows as usize).sum::<usize>();
    let (acc, jerk) = (sum(problem.acc_rows), sum(problem.jerk_rows));
    let (n0, n1) = problem.num_stationary;
    let lengths = [
        (true, problem.amax, stations),
        (true, problem.acc_a, acc),
        (true, problem.acc_b, acc),
        (true, problem.acc_max, acc),
        (true, problem.jerk_a, jerk),
        (true, problem.jerk_b, jerk),
        (true, problem.jerk_c, jerk),
        (true, problem.jerk_max, jerk),
        (thermal, problem.thermal, stations),
        (torque, problem.torque_a, problem.d * stations),
        (torque, problem.torque_b, problem.d * stations),
        (torque, problem.torque_g, problem.d * stations),
        (linear, problem.start_roots, n0.max(1) - 1),
        (linear, problem.end_roots, n1.max(1) - 1),
    ];
    for (i, (counts, table, len)) in lengths.into_iter().enumerate() {
        if counts && table.len() != len {
            return refuse(15, 2 + i);
        }
    }
    Ok(())
}

/// 17 a bound that is read and can't be one, then 18 a maximum below its minimum.
fn bounds(problem: &Problem) -> Check {
    let (n0, n1) = problem.num_stationary;
    let n = problem.grid.len() - 1;
    let no_maximum = |number: f64| number.is_nan() || number == f64::NEG_INFINITY;
    let no_bounds = |bounds: Bounds| no_maximum(bounds.maximum) || !bounds.minimum.is_finite();
    let ends = [(n0 > 0, problem.start), (n1 > 0, problem.end)];
    first(17, ends.iter().map(|&(read, end)| read && no_bounds(end)))?;
    for k in n0 + 1..n - n1 {
        if no_maximum(problem.amax[k]) {
            return refuse(17, 2 + k);
        }
    }
    first(
        18,
        ends.iter()
            .map(|&(read, end)| read && end.maximum < end.minimum),
    )
}

/// 19 a buffer without a place for each entry (0 to 2), row (3), cone (4, 5) or column (6).
pub fn short_buffer(counts: Counts, lengths: &[usize; 7]) -> Check {
    let needed = [
        counts.entries,
        counts.entries,
        counts.entries,
        counts.rows,
        counts.cones,
        counts.cones,
        counts.columns,
    ];
    first(
        19,
        lengths.iter().zip(needed).map(|(&len, need)| len < need),
    )
}

/// 28 an index without eight places for each owner; there are two owners more than objectives.
pub fn short_index(objectives: usize, index_len: usize) -> Check {
    let needed = 8 * (objectives as u128 + 2);
    if (index_len as u128) < needed {
        return refuse(28, 0);
    }
    Ok(())
}

/// 20 a number to be written to values, right side or cost is not finite.
pub fn not_finite(assembled: &Assembled) -> Check {
    let lists = [&assembled.val, &assembled.b, &assembled.q_object];
    if lists
        .iter()
        .any(|list| list.iter().any(|number| !number.is_finite()))
    {
        return refuse(20, 0);
    }
    Ok(())
}
