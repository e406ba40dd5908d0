//! The accepted problem that every row begins with, and what a row may change in it.

use comparison::case::Case;
use reference::sample::Sample;
use reference::{Boundary, Bounds, Objective, Part};

pub const NAN: f64 = f64::NAN;
pub const INFINITY: f64 = f64::INFINITY;
pub const MINUS_INFINITY: f64 = f64::NEG_INFINITY;
/// The smallest positive double, the largest, and the one before 1.
pub const TINY: f64 = f64::from_bits(1);
pub const HUGE: f64 = f64::MAX;
pub const BELOW_1: f64 = 1.0f64.next_down();
/// The largest 64-bit whole number.
pub const LARGEST: usize = usize::MAX;

/// What a row does to the problem.
pub type Change = Box<dyn Fn(&mut Case)>;

/// n = 7, N0 = N1 = 2, d = 2, the four kinds, twelve slots that don't count. Stations 3 and 4
/// have an amax that is read.
///
/// The pool has 20 numbers: two scales, two scales, alpha, beta.
pub fn base() -> Case {
    let mut sample = Sample::plain(7, (2, 2), 2);
    sample.grid = vec![-1.0, 0.0, 0.5, 1.0, 2.0, 3.0, 4.0, 6.0];
    sample.boundary.a = (1.0, 1.0);
    sample.boundary.b = (1.0, -1.0);
    (sample.start, sample.end) = (between(2.0, 1.0), between(3.0, 1.0));
    sample.rows[0] = vec![1, 0, 0, 2, 0, 0, 0, 1];
    sample.rows[1] = vec![1, 0, 1, 0, 0, 0, 0, 1];
    let lengths = [8, 4, 4, 4, 3, 3, 3, 3, 8, 16, 16, 16, 1, 1];
    sample.tables = lengths.map(|len| vec![1.0; len]);
    sample.table_mut(2).fill(4.0);
    sample.pool = vec![1.0; 20];
    sample.objectives = vec![
        thermal(1.0, 0, 2),
        torque(1.0, 2, 2),
        linear(1.0, 4, 8, 12, 8),
        time(1.0),
    ];
    sample.count = 4;
    sample.objectives.resize(16, time(NAN));
    Case::new(sample)
}

fn between(maximum: f64, minimum: f64) -> Bounds {
    Bounds { maximum, minimum }
}

fn part(start: usize, len: usize) -> Part {
    Part { start, len }
}

pub fn time(weight: f64) -> Objective {
    Objective::Time(weight)
}

pub fn thermal(weight: f64, start: usize, len: usize) -> Objective {
    Objective::ThermalEnergy(weight, part(start, len))
}

pub fn torque(weight: f64, start: usize, len: usize) -> Objective {
    Objective::TotalVariationTorque(weight, part(start, len))
}

/// Start and length of alpha, then of beta.
pub fn linear(weight: f64, start: usize, len: usize, start2: usize, len2: usize) -> Objective {
    Objective::Linear(weight, part(start, len), part(start2, len2))
}

fn change(what: impl Fn(&mut Sample) + 'static) -> Change {
    Box::new(move |case| what(&mut case.sample))
}

/// Initial a, terminal a, initial b, terminal b.
pub fn boundary(a0: f64, a1: f64, b0: f64, b1: f64) -> Change {
    let (a, b) = ((a0, a1), (b0, b1));
    change(move |s| s.boundary = Boundary { a, b })
}

/// Maximum and minimum of the start.
pub fn start(maximum: f64, minimum: f64) -> Change {
    change(move |s| s.start = between(maximum, minimum))
}

pub fn end(maximum: f64, minimum: f64) -> Change {
    change(move |s| s.end = between(maximum, minimum))
}

pub fn dimension(d: usize) -> Change {
    change(move |s| s.d = d)
}

/// N0 and N1.
pub fn stationary(n0: usize, n1: usize) -> Change {
    change(move |s| s.num_stationary = (n0, n1))
}

pub fn count(count: usize) -> Change {
    change(move |s| s.count = count)
}

pub fn objective(slot: usize, objective: Objective) -> Change {
    change(move |s| s.objectives[slot] = objective)
}

/// The same objective in every slot from one on.
pub fn slots_from(first: usize, objective: Objective) -> Change {
    change(move |s| s.objectives[first..].fill(objective))
}

/// A record of a kind that there is not.
pub fn kind(slot: usize, kind: u64) -> Change {
    Box::new(move |case| case.kinds[slot] = Some(kind))
}

pub fn grid<const N: usize>(grid: [f64; N]) -> Change {
    change(move |s| s.grid = grid.to_vec())
}

pub fn station(k: usize, s: f64) -> Change {
    change(move |sample| sample.grid[k] = s)
}

pub fn pooled(k: usize, number: f64) -> Change {
    change(move |s| s.pool[k] = number)
}

/// Number k of table 0 or 1.
pub fn row_count(table: usize, k: usize, count: u32) -> Change {
    change(move |s| s.rows[table][k] = count)
}

/// Number k of table 2 to 15.
pub fn number(table: usize, k: usize, number: f64) -> Change {
    change(move |s| s.table_mut(table)[k] = number)
}

pub fn amax(k: usize, bound: f64) -> Change {
    number(2, k, bound)
}

/// Table 2 to 15 as a whole.
pub fn table<const N: usize>(table: usize, numbers: [f64; N]) -> Change {
    change(move |s| *s.table_mut(table) = numbers.to_vec())
}

/// A table without its last number.
pub fn shorter(table: usize) -> Change {
    change(move |s| match table {
        0 | 1 => drop(s.rows[table].pop()),
        _ => drop(s.table_mut(table).pop()),
    })
}

/// A table with one number more.
pub fn longer(table: usize) -> Change {
    change(move |s| match table {
        0 | 1 => s.rows[table].push(0),
        _ => s.table_mut(table).push(1.0),
    })
}

/// Each of these tables with one number more, which is NaN.
pub fn all_longer<const N: usize>(tables: [usize; N]) -> Change {
    change(move |s| tables.iter().for_each(|&t| s.table_mut(t).push(NAN)))
}

/// Each of these tables without a number.
pub fn all_empty<const N: usize>(tables: [usize; N]) -> Change {
    change(move |s| tables.iter().for_each(|&t| s.table_mut(t).clear()))
}

/// Time in every slot, four of them counting.
pub fn times() -> Change {
    slots_from(0, time(1.0))
}

/// One objective that is not Time, among four.
pub fn only(objective: Objective) -> Change {
    change(move |s| {
        s.objectives.fill(time(1.0));
        s.objectives[1] = objective;
    })
}

/// A problem of its own: so many stations 0, 1, .., no stationary one, and one Time.
pub fn stations(stations: usize) -> Change {
    change(move |s| {
        let (boundary, mut slots) = (s.boundary, vec![time(1.0)]);
        slots.resize(16, time(NAN));
        *s = Sample::plain(stations.max(1) - 1, (0, 0), 1);
        s.grid.truncate(stations);
        (s.boundary, s.objectives, s.count) = (boundary, slots, 1);
    })
}

/// All that goes by d: the scales of both torque objectives and tables 11 to 13.
pub fn torques(d: usize) -> Change {
    change(move |s| {
        s.d = d;
        let first = s.pool.len();
        s.pool.resize(first + d, 1.0);
        s.objectives[0] = thermal(1.0, first, d);
        s.objectives[1] = torque(1.0, first, d);
        let stations = s.grid.len();
        (11..=13).for_each(|t| *s.table_mut(t) = vec![1.0; d * stations]);
    })
}

/// So many rows at a station, with tables 3 to 5 or 6 to 9 to match.
pub fn rows_at(table: usize, k: usize, count: u32) -> Change {
    change(move |s| {
        s.rows[table][k] = count;
        let sum = s.rows[table].iter().sum::<u32>() as usize;
        let blocks = if table == 0 { 3..=5 } else { 6..=9 };
        blocks.for_each(|t| *s.table_mut(t) = vec![1.0; sum]);
    })
}
