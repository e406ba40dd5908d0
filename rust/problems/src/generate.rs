//! Random problems that pass refusals 1 to 18, of all shapes.
//!
//! Every place that no row or cost uses may hold anything, NaN and infinities too.

use crate::rng::{Flavour, Rng, number, weight};
use reference::sample::Sample;
use reference::{Boundary, Bounds, Objective, Part};

/// A random problem; what becomes of it in refusals 19 and 20 is open.
pub fn sample(rng: &mut Rng) -> Sample {
    let n = match rng.below(1000) {
        0..600 => rng.between(2, 6),
        600..950 => rng.between(2, 12),
        _ => rng.between(13, 60),
    };
    let num_stationary = stationary(rng, n);
    let d = match rng.below(100) {
        0..4 => 32,
        _ => rng.between(1, 6),
    };
    let flavour = match rng.below(100) {
        0..80 => Flavour::Tame,
        80..95 => Flavour::Mixed,
        _ => Flavour::Wild,
    };
    let most = match rng.below(20) {
        0..12 => 3,
        12..19 => 6,
        _ => 16,
    };
    let count = rng.between(1, most);
    shaped(rng, n, num_stationary, d, count, flavour)
}

/// Stationary counts that leave a moving interval, often just one.
pub fn stationary(rng: &mut Rng, n: usize) -> (usize, usize) {
    let few = |rng: &mut Rng| rng.pick(&[0, 0, 0, 1, 1, 1, 2, 2, 3, 4]);
    loop {
        let n0 = if rng.chance(5) {
            rng.below(n)
        } else {
            few(rng)
        };
        let n1 = if n0 < n && rng.chance(15) {
            n - 1 - n0
        } else {
            few(rng)
        };
        if n0 + n1 < n {
            return if rng.chance(50) { (n0, n1) } else { (n1, n0) };
        }
    }
}

/// A random problem of a given shape.
pub fn shaped(
    rng: &mut Rng,
    n: usize,
    num_stationary: (usize, usize),
    d: usize,
    count: usize,
    flavour: Flavour,
) -> Sample {
    let mut sample = unspoiled(rng, n, num_stationary, d, count, flavour);
    if rng.chance(70) {
        spoil_unread(rng, &mut sample);
    }
    sample
}

/// The same with finite numbers in the unread places too; upper bounds may be infinite.
pub fn unspoiled(
    rng: &mut Rng,
    n: usize,
    num_stationary: (usize, usize),
    d: usize,
    count: usize,
    flavour: Flavour,
) -> Sample {
    let mut sample = Sample::plain(n, num_stationary, d);
    sample.grid = grid(rng, n, flavour);
    sample.boundary = boundary(rng, flavour);
    sample.start = bounds(rng, flavour);
    sample.end = bounds(rng, flavour);
    rows(rng, &mut sample);
    fill(rng, &mut sample, flavour);
    for _ in 0..count {
        objective(rng, &mut sample, flavour);
    }
    sample
}

/// Rising finite numbers: whole, uneven, close together, far apart or across zero.
fn grid(rng: &mut Rng, n: usize, flavour: Flavour) -> Vec<f64> {
    let style = match flavour {
        Flavour::Tame => rng.below(3),
        _ => rng.below(7),
    };
    let mut s = match style {
        0 => 0.0,
        1 => -(n as f64) / 2.0,
        6 => -1e308,
        _ => number(rng, flavour).clamp(-1e300, 1e300),
    };
    let leap = rng.below(n);
    let mut grid = vec![s];
    for k in 0..n {
        let step = match style {
            0 => 1.0,
            1 | 2 => 0.01 + rng.unit(),
            3 => 0.0,
            4 => f64::from_bits(rng.bits() >> 12),
            5 => rng.unit() * 1e290,
            _ => 1e300,
        };
        s = (s + step).max(s.next_up());
        // One spacing that overflows.
        if style == 6 && k == leap {
            s = 1e308;
        }
        grid.push(s);
    }
    grid
}

/// Boundary states that pass refusals 1 to 3.
fn boundary(rng: &mut Rng, flavour: Flavour) -> Boundary {
    let a = |rng: &mut Rng| match rng.below(4) {
        0 => 0.0,
        1 => -0.0,
        _ => number(rng, flavour).abs(),
    };
    let (a0, a1) = (a(rng), a(rng));
    let (mut b0, mut b1) = (number(rng, flavour), number(rng, flavour));
    if a0 == 0.0 && b0 < 0.0 {
        b0 = -b0;
    }
    if a1 == 0.0 && b1 > 0.0 {
        b1 = -b1;
    }
    Boundary {
        a: (a0, a1),
        b: (b0, b1),
    }
}

fn bounds(rng: &mut Rng, flavour: Flavour) -> Bounds {
    let minimum = number(rng, flavour);
    let maximum = match rng.below(4) {
        0 => f64::INFINITY,
        1 => minimum,
        2 => minimum.max(number(rng, flavour)),
        _ if minimum == 0.0 => -minimum,
        _ => minimum.next_up(),
    };
    Bounds { maximum, minimum }
}

/// Row counts: none, the same everywhere, uneven, or the most that are allowed.
fn rows(rng: &mut Rng, sample: &mut Sample) {
    let stations = sample.grid.len();
    for table in &mut sample.rows {
        let style = rng.below(100);
        let same = rng.below(4) as u32;
        *table = (0..stations)
            .map(|_| match style {
                0..30 => 0,
                30..60 => same,
                _ => rng.below(4) as u32,
            })
            .collect();
        if style == 99 {
            let k = rng.below(stations);
            table[k] = 256;
        }
    }
}

/// Tables 2 to 15 at the lengths that they need if they count.
fn fill(rng: &mut Rng, sample: &mut Sample, flavour: Flavour) {
    let stations = sample.grid.len();
    let sum = |rows: &[u32]| rows.iter().map(|&rows| rows as usize).sum::<usize>();
    let (acc, jerk) = (sum(&sample.rows[0]), sum(&sample.rows[1]));
    for table in 2..=15 {
        let len = match table {
            2 | 10 => stations,
            3..=5 => acc,
            6..=9 => jerk,
            11..=13 => sample.d * stations,
            14 => sample.num_stationary.0.max(1) - 1,
            _ => sample.num_stationary.1.max(1) - 1,
        };
        *sample.table_mut(table) = (0..len).map(|_| number(rng, flavour)).collect();
    }
    for amax in sample.table_mut(2) {
        if rng.chance(40) {
            *amax = f64::INFINITY;
        }
    }
    if rng.chance(50) {
        true_roots(sample);
    }
}

/// Tables 14 and 15 as the published Rust would have them.
fn true_roots(sample: &mut Sample) {
    let s = sample.grid.clone();
    let n = s.len() - 1;
    let (n0, n1) = sample.num_stationary;
    let root = |k: usize, e: usize, end: usize| ((s[k] - s[end]) / (s[e] - s[end])).cbrt();
    *sample.table_mut(14) = (1..n0).map(|k| root(k, n0, 0)).collect();
    *sample.table_mut(15) = (1..n1).map(|k| root(k, n - n1, n)).collect();
}

/// A list for the pool: new, behind a gap, or one that another objective has already.
fn list(rng: &mut Rng, sample: &mut Sample, numbers: Vec<f64>) -> Part {
    for _ in 0..rng.pick(&[0, 0, 1, 3]) {
        let junk = rng.any_finite();
        sample.pool.push(junk);
    }
    sample.list(&numbers)
}

fn objective(rng: &mut Rng, sample: &mut Sample, flavour: Flavour) {
    if !sample.objectives.is_empty() && rng.chance(10) {
        let again = rng.pick(&sample.objectives);
        sample.objectives.push(again);
        sample.count = sample.objectives.len();
        return;
    }
    let w = weight(rng, flavour);
    let stations = sample.grid.len();
    let objective = match rng.below(4) {
        0 => Objective::Time(w),
        kind @ (1 | 2) => {
            let scales = (0..sample.d).map(|_| weight(rng, flavour)).collect();
            let scales = list(rng, sample, scales);
            if kind == 1 {
                Objective::ThermalEnergy(w, scales)
            } else {
                Objective::TotalVariationTorque(w, scales)
            }
        }
        _ => {
            let alpha = (0..stations).map(|_| number(rng, flavour)).collect();
            let alpha = list(rng, sample, alpha);
            let beta = (0..stations).map(|_| number(rng, flavour)).collect();
            let beta = list(rng, sample, beta);
            Objective::Linear(w, alpha, beta)
        }
    };
    sample.objectives.push(objective);
    sample.count = sample.objectives.len();
}

/// Which objectives a problem has.
#[derive(Default)]
pub struct Present {
    pub time: bool,
    pub thermal: bool,
    pub variation: bool,
    pub linear: bool,
}

pub fn present(sample: &Sample) -> Present {
    let mut found = Present::default();
    for objective in &sample.objectives {
        match objective {
            Objective::Time(..) => found.time = true,
            Objective::ThermalEnergy(..) => found.thermal = true,
            Objective::TotalVariationTorque(..) => found.variation = true,
            Objective::Linear(..) => found.linear = true,
        }
    }
    found
}

/// Puts NaN, infinities or anything into a place.
fn spoil(rng: &mut Rng, number: &mut f64) {
    match rng.below(4) {
        0 => {}
        1 => *number = rng.any_finite(),
        _ => *number = rng.not_finite(),
    }
}

/// Spoils every number of tables 2 to 15, pool and bounds that nothing reads.
pub fn spoil_unread(rng: &mut Rng, sample: &mut Sample) {
    let found = present(sample);
    let (n0, n1) = sample.num_stationary;
    let n = sample.grid.len() - 1;
    if n0 == 0 {
        spoil(rng, &mut sample.start.maximum);
        spoil(rng, &mut sample.start.minimum);
    }
    if n1 == 0 {
        spoil(rng, &mut sample.end.maximum);
        spoil(rng, &mut sample.end.minimum);
    }
    let inner = n0 + 1..n - n1;
    spoil_stations(rng, sample, 2, |_| 1, |k| inner.contains(&k));
    let acc = sample.rows[0].clone();
    for table in 3..=5 {
        spoil_stations(rng, sample, table, |k| acc[k], |k| inner.contains(&k));
    }
    let jerk = sample.rows[1].clone();
    for table in 6..=9 {
        let read = |k| (n0..=n - n1).contains(&k);
        spoil_stations(rng, sample, table, |k| jerk[k], read);
    }
    let rooted = n0.max(1)..=n - n1.max(1);
    let stretch = |k: usize| (k == 0 && n0 > 0) || (k == n && n1 > 0);
    spoil_stations(
        rng,
        sample,
        10,
        |_| 1,
        |k| rooted.contains(&k) || stretch(k),
    );
    let torque = |k: usize| {
        (found.thermal && rooted.contains(&k)) || (found.variation && (n0..=n - n1).contains(&k))
    };
    let d = sample.d as u32;
    spoil_stations(rng, sample, 11, |_| d, torque);
    spoil_stations(rng, sample, 12, |_| d, torque);
    spoil_stations(rng, sample, 13, |_| d, |k| torque(k) || stretch(k));
    spoil_uncounted(rng, sample, &found);
    spoil_pool(rng, sample);
}

/// Spoils the blocks of a table that belong to stations nothing reads there.
fn spoil_stations(
    rng: &mut Rng,
    sample: &mut Sample,
    table: usize,
    block: impl Fn(usize) -> u32,
    read: impl Fn(usize) -> bool,
) {
    let stations = sample.grid.len();
    let mut at = 0;
    for k in 0..stations {
        let len = block(k) as usize;
        if !read(k) {
            for number in &mut sample.table_mut(table)[at..at + len] {
                spoil(rng, number);
            }
        }
        at += len;
    }
}

/// Gives tables that don't count any length and any contents.
fn spoil_uncounted(rng: &mut Rng, sample: &mut Sample, found: &Present) {
    for table in 10..=15 {
        let counts = match table {
            10 => found.thermal,
            11..=13 => found.thermal || found.variation,
            _ => found.linear,
        };
        if counts || rng.chance(30) {
            continue;
        }
        let len = rng.below(6);
        *sample.table_mut(table) = (0..len).map(|_| rng.not_finite()).collect();
    }
}

/// Which places of the pool are read; of alpha and beta, the stations that a cost uses.
pub fn read_of_pool(sample: &Sample) -> Vec<bool> {
    let (n0, n1) = sample.num_stationary;
    let n = sample.grid.len() - 1;
    let mut read = vec![false; sample.pool.len()];
    for objective in &sample.objectives {
        match *objective {
            Objective::Time(..) => {}
            Objective::ThermalEnergy(_, scales) | Objective::TotalVariationTorque(_, scales) => {
                read[scales.start..scales.start + scales.len].fill(true);
            }
            Objective::Linear(_, alpha, beta) => {
                for k in (n0..=n - n1).chain(1..n0).chain(1..n1) {
                    read[alpha.start + k] = true;
                    read[beta.start + k] = true;
                }
            }
        }
    }
    read
}

/// Spoils the places of the pool that are not read.
fn spoil_pool(rng: &mut Rng, sample: &mut Sample) {
    let read = read_of_pool(sample);
    for (number, read) in sample.pool.iter_mut().zip(read) {
        if !read {
            spoil(rng, number);
        }
    }
}
