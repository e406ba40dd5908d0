//! Faults aimed at each refusal, put into problems that were in order.

use crate::case::Case;
use crate::rng::Rng;
use reference::refusals::before_buffers;
use reference::sample::Sample;
use reference::{Objective, Part};

/// The refusals that a fault can be aimed at; 19 and 28 are a matter of buffers.
pub const AIMS: [u64; 20] = [
    1, 2, 3, 4, 5, 6, 7, 8, 9, 10, 11, 12, 13, 14, 15, 16, 17, 18, 20, 40,
];

/// Puts one fault or several into the problem.
pub fn several(rng: &mut Rng, case: &mut Case) {
    for _ in 0..rng.pick(&[1, 1, 1, 2, 3, 5]) {
        let aim = rng.pick(&AIMS);
        damage(rng, case, aim);
    }
}

/// Puts a fault into the problem; where there is no place for it, nothing happens.
pub fn damage(rng: &mut Rng, case: &mut Case, aim: u64) {
    match aim {
        1..=3 => boundary(rng, case, aim),
        5 => longer(rng, &mut case.sample),
        4..=7 => grid(rng, case, aim),
        8..=10 => set_up(rng, case, aim),
        11..=13 => objective(rng, case, aim),
        14 => stationary(rng, case),
        15 => length(rng, case),
        16 => row_count(rng, case),
        17 | 18 => bound(rng, case, aim),
        20 => written(rng, case),
        _ => kind(rng, case),
    }
}

/// A number just or far below zero.
fn negative(rng: &mut Rng) -> f64 {
    let any = -rng.any_finite().abs();
    rng.pick(&[-1.0, -f64::from_bits(1), f64::MIN, any.min(-1e-300)])
}

fn boundary(rng: &mut Rng, case: &mut Case, aim: u64) {
    let boundary = &mut case.sample.boundary;
    let end = rng.below(2);
    let (a, b) = if end == 0 {
        (&mut boundary.a.0, &mut boundary.b.0)
    } else {
        (&mut boundary.a.1, &mut boundary.b.1)
    };
    match aim {
        1 => *if rng.chance(50) { a } else { b } = rng.not_finite(),
        2 => *a = negative(rng),
        _ => {
            *a = rng.pick(&[0.0, -0.0]);
            let off = negative(rng);
            *b = if end == 0 { off } else { -off };
        }
    }
}

fn grid(rng: &mut Rng, case: &mut Case, aim: u64) {
    let grid = &mut case.sample.grid;
    match aim {
        4 => grid.truncate(rng.below(3)),
        _ if grid.len() < 2 => {}
        6 => {
            let k = rng.below(grid.len());
            grid[k] = rng.not_finite();
        }
        _ => {
            let k = rng.between(1, grid.len() - 1);
            match rng.below(4) {
                0 => grid[k] = grid[k - 1],
                1 => grid[k] = grid[k - 1].next_down(),
                2 => grid.swap(k - 1, k),
                _ => (grid[k - 1], grid[k]) = (0.0, -0.0),
            }
        }
    }
}

/// Too many stations, but in one case of eight only, for they take time. Still more rarely as many
/// as once were the most, or one more, which are accepted.
fn longer(rng: &mut Rng, sample: &mut Sample) {
    match rng.below(160) {
        0 => lengthen(sample, rng.pick(&[4_097, 4_098])),
        1..=20 => {
            let len = rng.pick(&[65_538, 65_538, 65_539, 70_000]);
            let last = sample.grid.last().copied().unwrap_or(0.0);
            let more = sample.grid.len()..len;
            sample.grid.extend(more.map(|k| last + k as f64));
        }
        _ => {}
    }
}

/// So many stations, with tables and lists to match, in a problem that is in order and that does
/// not write too much then.
fn lengthen(sample: &mut Sample, stations: usize) {
    if before_buffers(&sample.problem()).is_err() || sample.d * sample.count > 8 {
        return;
    }
    let grid = &mut sample.grid;
    while grid.len() < stations {
        let last = grid[grid.len() - 1];
        grid.push((last + 1.0).max(last.next_up()));
    }
    let stations = grid.len();
    sample
        .rows
        .iter_mut()
        .for_each(|rows| rows.resize(stations, 0));
    for table in [2, 10] {
        sample.table_mut(table).resize(stations, 1.0);
    }
    for table in 11..=13 {
        let len = sample.d * stations;
        sample.table_mut(table).resize(len, 1.0);
    }
    for objective in &mut sample.objectives {
        if let Objective::Linear(_, alpha, beta) = objective {
            for list in [alpha, beta] {
                let numbers = list.start..list.start + list.len;
                list.start = sample.pool.len();
                sample.pool.extend_from_within(numbers);
                list.len = stations;
                sample.pool.resize(list.start + stations, 1.0);
            }
        }
    }
}

fn set_up(rng: &mut Rng, case: &mut Case, aim: u64) {
    let sample = &mut case.sample;
    match aim {
        8 => sample.d = rng.pick(&[0, 33, 33, 64, usize::MAX, 1 << 32, (1 << 32) + 1]),
        9 => sample.count = 0,
        _ => sample.count = rng.pick(&[17, 17, 18, usize::MAX, 1 << 32, (1 << 32) + 1]),
    }
}

fn objective(rng: &mut Rng, case: &mut Case, aim: u64) {
    let sample = &mut case.sample;
    let index = rng.below(sample.objectives.len());
    let bad = if rng.chance(50) {
        rng.not_finite()
    } else {
        negative(rng)
    };
    let (weight, lists) = match &mut sample.objectives[index] {
        Objective::Time(weight) => (weight, vec![]),
        Objective::ThermalEnergy(weight, scales)
        | Objective::TotalVariationTorque(weight, scales) => (weight, vec![scales]),
        Objective::Linear(weight, alpha, beta) => (weight, vec![alpha, beta]),
    };
    match aim {
        11 => *weight = bad,
        12 if lists.is_empty() => {}
        12 => {
            let at = rng.below(lists.len());
            let mut lists = lists;
            part(rng, lists[at], sample.pool.len());
        }
        _ if lists.len() != 1 => {}
        _ => {
            let scales = *lists[0];
            let at = scales.start.wrapping_add(rng.below(scales.len.max(1)));
            if let Some(scale) = sample.pool.get_mut(at) {
                *scale = bad;
            }
        }
    }
}

/// A part of a wrong length, or one past the pool by one place, by many, or by wrapping.
fn part(rng: &mut Rng, part: &mut Part, pool: usize) {
    match rng.below(9) {
        0 => part.len = part.len.wrapping_sub(1),
        1 => part.len += 1,
        2 => part.len = 0,
        3 => part.start = (pool + 1).saturating_sub(part.len),
        4 => part.start = pool,
        5 => part.start = usize::MAX,
        6 => part.start = 0usize.wrapping_sub(part.len),
        7 => part.start = 0usize.wrapping_sub(part.len).wrapping_add(1),
        _ => part.len = usize::MAX - rng.below(3),
    }
}

fn stationary(rng: &mut Rng, case: &mut Case) {
    let n = case.sample.grid.len().saturating_sub(1);
    let (n0, n1) = match rng.below(7) {
        0 => (n, 0),
        1 => {
            let n0 = rng.below(n + 1);
            (n0, n - n0)
        }
        2 => (rng.below(n + 1), n),
        3 => (usize::MAX, rng.below(4)),
        4 => (1 << 63, 1 << 63),
        5 => (usize::MAX, usize::MAX),
        _ => (1 << 32, rng.below(3)),
    };
    case.sample.num_stationary = if rng.chance(50) { (n0, n1) } else { (n1, n0) };
}

fn resize<T: Copy + Default>(rng: &mut Rng, table: &mut Vec<T>) {
    match rng.below(5) {
        0 => table.clear(),
        1 => table.extend(table.clone()),
        2 => table.push(T::default()),
        3 if table.is_empty() => table.push(T::default()),
        _ => {
            table.pop();
        }
    }
}

fn length(rng: &mut Rng, case: &mut Case) {
    match rng.below(16) {
        table @ (0 | 1) => resize(rng, &mut case.sample.rows[table]),
        table => resize(rng, case.sample.table_mut(table)),
    }
}

/// A row count above 256, in half of the cases with tables that have these rows.
fn row_count(rng: &mut Rng, case: &mut Case) {
    let sample = &mut case.sample;
    let which = rng.below(2);
    if sample.rows[which].is_empty() {
        return;
    }
    let k = rng.below(sample.rows[which].len());
    if rng.chance(50) {
        sample.rows[which][k] = rng.pick(&[257, 258, 512, u32::MAX, 1 << 31]);
        return;
    }
    let more = 257 - sample.rows[which][k].min(256) as usize;
    sample.rows[which][k] = 257;
    let tables = if which == 0 { 3..=5 } else { 6..=9 };
    for table in tables {
        let len = sample.table(table).len();
        sample.table_mut(table).resize(len + more, 0.0);
    }
}

fn bound(rng: &mut Rng, case: &mut Case, aim: u64) {
    let sample = &mut case.sample;
    let stations = sample.grid.len().min(sample.table(2).len());
    if aim == 17 && stations > 0 && rng.chance(50) {
        let k = rng.below(stations);
        sample.table_mut(2)[k] = rng.pick(&[f64::NAN, f64::NEG_INFINITY]);
        return;
    }
    let end = if rng.chance(50) {
        &mut sample.start
    } else {
        &mut sample.end
    };
    match (aim, rng.below(2)) {
        (17, 0) => end.maximum = rng.pick(&[f64::NAN, f64::NEG_INFINITY]),
        (17, _) => end.minimum = rng.not_finite(),
        (_, 0) => end.maximum = end.minimum.next_down(),
        _ => (end.maximum, end.minimum) = (-1.0, 1.0),
    }
}

/// A number that isn't finite, or leads to one, wherever it may or may not be read.
fn written(rng: &mut Rng, case: &mut Case) {
    let sample = &mut case.sample;
    let bad = if rng.chance(70) {
        rng.not_finite()
    } else {
        rng.sign() * f64::MAX
    };
    let linear = sample
        .objectives
        .iter()
        .find_map(|objective| match objective {
            Objective::Linear(_, alpha, beta) => Some((*alpha, *beta)),
            _ => None,
        });
    if let Some((alpha, beta)) = linear
        && rng.chance(30)
    {
        let list = if rng.chance(50) { alpha } else { beta };
        let at = list.start.wrapping_add(rng.below(list.len.clamp(1, 100)));
        if let Some(number) = sample.pool.get_mut(at) {
            *number = bad;
        }
        return;
    }
    for _ in 0..4 {
        let table = rng.between(3, 15);
        if !sample.table(table).is_empty() {
            let at = rng.below(sample.table(table).len());
            sample.table_mut(table)[at] = bad;
            return;
        }
    }
}

fn kind(rng: &mut Rng, case: &mut Case) {
    let index = if rng.chance(80) {
        rng.below(case.sample.objectives.len().min(16))
    } else {
        rng.below(16)
    };
    case.kinds[index] = Some(rng.pick(&[4, 4, 5, 255, 256, 1 << 32, u64::MAX, (1 << 63) + 1]));
}
