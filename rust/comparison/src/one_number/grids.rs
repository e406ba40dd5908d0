//! Grids of finite numbers whose spacings, distances, reciprocals or Time weights overflow.

use super::Class;
use super::places::{Shape, choose, stations};
use crate::rng::Rng;
use reference::sample::Sample;

/// The ordinary spacing of a grid with a leap, far below the leap.
const STEP: f64 = 1e300;

/// 2^1022: a spacing of twice that overflows when doubled, and from the double below it doesn't.
const EDGE: f64 = 1.0 / f64::MIN_POSITIVE;

pub fn classes() -> Vec<Class> {
    vec![
        leap("-2h", (0.52, 0.62), moving),
        edge("-2h, just too large", EDGE),
        leap("spacing", (1.04, 1.8), moving),
        leap("start coefficient", (0.7, 1.8), at_start),
        leap("end coefficient", (0.7, 1.8), at_end),
        reciprocal("jerk reciprocal", |shape, rows, k| {
            moving(shape, k) && rows[k] + rows[k + 1] > 0
        }),
        time_weight("Time weight at the start", |shape| {
            shape.n0 > 0 && shape.n1 == 0
        }),
        time_weight("Time weight at the end", |shape| {
            shape.n0 == 0 && shape.n1 > 0
        }),
    ]
}

/// The same sort of numbers where nothing is written of what overflows.
pub fn harmless() -> Vec<Class> {
    vec![
        edge("-2h, just finite", EDGE.next_down()),
        leap("unused -2h at the start", (0.52, 0.64), at_start),
        leap("unused -2h at the end", (0.52, 0.64), at_end),
        reciprocal("unused reciprocal, no jerk rows", |shape, rows, k| {
            moving(shape, k) && rows[k] + rows[k + 1] == 0
        }),
        // Linear would divide by this distance.
        reciprocal("unused reciprocal, stationary", |shape, _, k| {
            !moving(shape, k) && !shape.has.linear
        }),
        far_beta(),
    ]
}

/// Whether the interval behind station k is a moving one.
fn moving(shape: &Shape, k: usize) -> bool {
    shape.n0 <= k && k < shape.n - shape.n1
}

fn at_start(shape: &Shape, k: usize) -> bool {
    k < shape.n0
}

fn at_end(shape: &Shape, k: usize) -> bool {
    shape.n - shape.n1 <= k && k < shape.n
}

/// A grid of small steps, with a leap behind each of the stations given, around zero.
fn set_leaps(rng: &mut Rng, sample: &mut Sample, behind: &[usize], leap: f64) {
    // Half of all leaps lies below zero, so that the numbers stay finite.
    let half = f64::MAX * (leap / 2.0);
    let low = -half * behind.len() as f64 + 0.04 * rng.unit() * f64::MAX;
    let mut s = low;
    for k in 0..sample.grid.len() {
        sample.grid[k] = s;
        s += STEP;
        if behind.contains(&k) {
            s += half;
            s += half;
        }
    }
}

/// One interval that takes a share of the largest double; Time would overflow with it.
fn leap(name: &str, share: (f64, f64), interval: fn(&Shape, usize) -> bool) -> Class {
    Class::tame(name, move |rng, sample| {
        let shape = Shape::of(sample);
        if shape.has.time {
            return None;
        }
        let k = choose(rng, &stations(&shape, |k| interval(&shape, k)))?;
        let share = share.0 + rng.unit() * (share.1 - share.0);
        set_leaps(rng, sample, &[k], share);
        Some(())
    })
}

/// A moving spacing of twice `half`, around zero.
fn edge(name: &str, half: f64) -> Class {
    Class::tame(name, move |rng, sample| {
        let shape = Shape::of(sample);
        if shape.has.time {
            return None;
        }
        let k = choose(rng, &stations(&shape, |k| moving(&shape, k)))?;
        for (j, s) in sample.grid.iter_mut().enumerate() {
            *s = if j <= k {
                -half - (k - j) as f64 * STEP
            } else {
                half + (j - k - 1) as f64 * STEP
            };
        }
        Some(())
    })
}

/// A spacing so small that 1/spacing overflows, in an interval of the sort wanted.
fn reciprocal(name: &str, interval: fn(&Shape, &[u32], usize) -> bool) -> Class {
    Class::tame(name, move |rng, sample| {
        let shape = Shape::of(sample);
        let rows = &sample.rows[1];
        let intervals = stations(&shape, |k| k < shape.n && interval(&shape, rows, k));
        let k = choose(rng, &intervals)?;
        for (j, s) in sample.grid.iter_mut().enumerate() {
            *s = j as f64 - k as f64;
        }
        sample.grid[k + 1] = f64::from_bits(1 + (rng.bits() >> 15));
        Some(())
    })
}

/// The whole grid so far out that the Time weight of a positive end overflows.
fn time_weight(name: &str, wanted: fn(&Shape) -> bool) -> Class {
    Class::tame(name, move |rng, sample| {
        let shape = Shape::of(sample);
        if !shape.has.time || !wanted(&shape) {
            return None;
        }
        let far = rng.sign() * f64::MAX * (0.25 + 0.6 * rng.unit());
        for (k, s) in sample.grid.iter_mut().enumerate() {
            *s = far + k as f64 * STEP;
        }
        Some(())
    })
}

/// Linear's end part divides beta by 1.5·distance, which overflows, and nothing is left of beta.
fn far_beta() -> Class {
    Class::tame("beta over a distance that overflows", |rng, sample| {
        let shape = Shape::of(sample);
        let last = shape.n - shape.n1;
        let short = shape.n0 > 1 || shape.n1 < 2 || last < 3;
        if short || !shape.has.linear || shape.has.time {
            return None;
        }
        // Two leaps, each small enough for its own rows, behind station 1.
        let k = rng.between(1, last - 2);
        let second = rng.between(k + 1, last - 1);
        set_leaps(rng, sample, &[k, second], 0.36);
        Some(())
    })
}
