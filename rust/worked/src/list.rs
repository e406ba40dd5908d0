//! The six problems. Between them: each count from 0 to 3 at each end, each kind of objective with
//! and without a stationary start and end, each once and twice in a problem, one torque and two,
//! infinite and finite upper bounds, minus zero, subnormals, stations with 0, 1 and 2 rows.
//!
//! Each has at most 128 floats, entries, rows and columns: the program that replays the fixed list
//! has room for no more.

use crate::numbers::Numbers;
use crate::orders::*;
use published::against::own_roots;
use reference::sample::Sample;
use reference::{Bounds, Objective};

/// A problem, by name.
pub struct Worked {
    pub name: &'static str,
    pub sample: Sample,
}

/// One kind of objective.
#[derive(Clone, Copy)]
enum Kind {
    Time,
    Thermal,
    Torque,
    Linear,
}
use Kind::{Linear, Thermal, Time, Torque};

/// Stationary counts, number of torques, row counts per station, and the kinds in order.
struct Shape<'a> {
    ends: (usize, usize),
    d: usize,
    acc: &'a [u32],
    jerk: &'a [u32],
    kinds: &'a [Kind],
}

/// A problem of this shape; what its objectives do not read has wrong lengths.
fn filled(numbers: &mut Numbers, shape: Shape) -> Sample {
    let mut sample = Sample::plain(shape.acc.len() - 1, shape.ends, shape.d);
    fill_path(numbers, &mut sample);
    sample.rows = [shape.acc.to_vec(), shape.jerk.to_vec()];
    fill_rows(numbers, &mut sample);
    sample.pool = numbers.some(1);
    fill_objectives(numbers, shape.kinds, &mut sample);
    own_roots(&mut sample);
    sample
}

/// Grid, boundary, bounds and amax.
fn fill_path(numbers: &mut Numbers, sample: &mut Sample) {
    let mut at = numbers.either();
    for s in &mut sample.grid {
        *s = at;
        at += 0.1 * numbers.positive();
    }
    sample.boundary.a = (numbers.positive(), numbers.positive());
    sample.boundary.b = (numbers.either(), numbers.either());
    for bounds in [&mut sample.start, &mut sample.end] {
        let minimum = numbers.either();
        *bounds = Bounds {
            maximum: minimum + numbers.positive(),
            minimum,
        };
    }
    let stations = sample.grid.len();
    *sample.table_mut(2) = numbers.some(stations);
}

/// Tables 3 to 9.
fn fill_rows(numbers: &mut Numbers, sample: &mut Sample) {
    let [acc, jerk] = [0, 1].map(|table| sample.rows[table].iter().sum::<u32>() as usize);
    for table in 3..=9 {
        *sample.table_mut(table) = numbers.some(if table < 6 { acc } else { jerk });
    }
}

/// The objectives with their lists, and tables 10 to 13.
fn fill_objectives(numbers: &mut Numbers, kinds: &[Kind], sample: &mut Sample) {
    let (d, stations) = (sample.d, sample.grid.len());
    let mut lengths = [1, 3, 5, 7];
    for &kind in kinds {
        let weight = numbers.positive();
        let own = std::mem::replace(sample, Sample::plain(2, (0, 0), 1));
        *sample = match kind {
            Time => own.with_time(weight),
            Thermal => own.with_thermal(weight, &numbers.some_positive(d)),
            Torque => own.with_variation(weight, &numbers.some_positive(d)),
            Linear => own.with_linear(weight, &numbers.some(stations), &numbers.some(stations)),
        };
        match kind {
            Thermal => lengths = [stations, d * stations, d * stations, d * stations],
            Torque => lengths[1..].fill(d * stations),
            Time | Linear => {}
        }
    }
    for (i, len) in lengths.into_iter().enumerate() {
        *sample.table_mut(10 + i) = numbers.some(len);
    }
}

/// Each kind once; no moving station has an upper bound.
fn all(numbers: &mut Numbers) -> Sample {
    let shape = Shape {
        ends: (2, 1),
        d: 2,
        acc: &[1, 0, 1, 0, 1],
        jerk: &[1, 0, 1, 2, 1],
        kinds: &[Linear, Thermal, Torque, Time],
    };
    let mut all = filled(numbers, shape);
    (all.end.maximum, all.end.minimum) = (f64::INFINITY, 0.0);
    all.table_mut(2)[2] = f64::NAN;
    all.table_mut(2)[3] = f64::NEG_INFINITY;
    // Right sides of minus zero: -(g + g at the start) of the second torque, -g of the first.
    let g = all.table_mut(13);
    g[1] = -g[2 * 2 + 1];
    g[3 * 2] = 0.0;
    all
}

/// Two ThermalEnergy and a stationary end alone.
fn late(numbers: &mut Numbers) -> Sample {
    let shape = Shape {
        ends: (0, 2),
        d: 2,
        acc: &[1, 2, 1, 0, 1],
        jerk: &[1, 2, 0, 1, 0],
        kinds: &[Thermal, Time, Thermal, Linear],
    };
    let mut late = filled(numbers, shape);
    late.table_mut(2)[1] = f64::INFINITY;
    late.start.minimum = f64::NAN;
    late.table_mut(4)[1] = -0.0;
    late.table_mut(8)[0] = f64::from_bits(3);
    // Four times a number is exact, save among subnormals: there the order of factors shows.
    if let Objective::ThermalEnergy(weight, _) = &mut late.objectives[2] {
        *weight = f64::from_bits(7);
    }
    late
}

/// Two TotalVariationTorque, a stationary start alone, and minus zero at the boundary.
fn early(numbers: &mut Numbers) -> Sample {
    let shape = Shape {
        ends: (1, 0),
        d: 1,
        acc: &[2, 1, 1, 0],
        jerk: &[0, 1, 1, 2],
        kinds: &[Torque, Thermal, Torque, Linear],
    };
    let mut early = filled(numbers, shape);
    (early.start.maximum, early.start.minimum) = (0.9, 0.0);
    early.end.maximum = f64::NAN;
    early.boundary.a = (-0.0, 0.0);
    early.boundary.b = (0.0, -0.0);
    early
}

/// Three stations at each end, two Linear, and no root stage.
fn rootless(numbers: &mut Numbers) -> Sample {
    let shape = Shape {
        ends: (3, 3),
        d: 2,
        acc: &[0; 9],
        jerk: &[0; 9],
        kinds: &[Linear, Torque, Linear],
    };
    let mut rootless = filled(numbers, shape);
    rootless.start = Bounds {
        maximum: 0.7,
        minimum: f64::from_bits(1),
    };
    rootless
}

/// No stationary end, and two Time.
fn moving(numbers: &mut Numbers) -> Sample {
    let shape = Shape {
        ends: (0, 0),
        d: 1,
        acc: &[0, 0, 1, 0],
        jerk: &[0, 1, 0, 0],
        kinds: &[Time, Linear, Thermal, Torque, Time],
    };
    filled(numbers, shape)
}

/// Time alone; tables 14 and 15 have wrong lengths too.
fn time(numbers: &mut Numbers) -> Sample {
    let shape = Shape {
        ends: (1, 0),
        d: 1,
        acc: &[0; 4],
        jerk: &[0; 4],
        kinds: &[Time],
    };
    let mut time = filled(numbers, shape);
    *time.table_mut(14) = numbers.some(2);
    *time.table_mut(15) = numbers.some(3);
    time
}

/// How a problem is made, which orders of operations it has to tell from others, and the first
/// seed whose numbers do.
pub struct Plan {
    pub name: &'static str,
    made: fn(&mut Numbers) -> Sample,
    pub tells: &'static [Order],
    pub seed: u64,
}

pub const PLANS: [Plan; 6] = [
    Plan {
        name: "all",
        made: all,
        tells: &[
            TIME_START,
            TIME_END,
            ROW_START,
            ROW_END,
            START_FACTORS,
            START_BETA,
            GRAVITY_MORE,
        ],
        seed: 9_383,
    },
    Plan {
        name: "late",
        made: late,
        tells: &[THERMAL, TIME_END, ROW_END, END_FACTORS, END_BETA],
        seed: 2_882,
    },
    Plan {
        name: "early",
        made: early,
        tells: &[
            JERK_PRODUCT,
            JERK_QUOTIENT,
            JERK_SUM,
            GRAVITY_LESS,
            GRAVITY_MORE,
        ],
        seed: 804,
    },
    Plan {
        name: "rootless",
        made: rootless,
        tells: &[START_BETA, START_SUMS, END_SUMS, LINEAR_FUSED, GRAVITY_LESS],
        seed: 3_449,
    },
    Plan {
        name: "moving",
        made: moving,
        tells: &[TIME_BETWEEN, JERK_PRODUCT, JERK_QUOTIENT, JERK_SUM],
        seed: 7_442,
    },
    Plan {
        name: "time",
        made: time,
        tells: &[TIME_START, TIME_BETWEEN, ROW_START],
        seed: 17_293,
    },
];

impl Plan {
    /// The problem of a seed; objectives past the count are not read.
    fn with(&self, seed: u64) -> Sample {
        let mut sample = (self.made)(&mut Numbers::new(seed));
        sample.objectives.resize(16, Objective::Time(f64::NAN));
        sample
    }

    pub fn worked(&self) -> Worked {
        Worked {
            name: self.name,
            sample: self.with(self.seed),
        }
    }

    /// The first seed from 1 on whose numbers tell every order that is asked for.
    pub fn first_seed(&self) -> u64 {
        let tells = |sample: &Sample| self.tells.iter().all(|order| (order.told_by)(sample));
        (1..)
            .find(|&seed| tells(&self.with(seed)))
            .expect("some seed tells them")
    }
}
