//! Finite jerk and torque numbers whose product, sum or difference overflows.

use super::Class;
use super::places::{
    BOTH, Shape, THERMAL, Torques, VARIATION, big, choose, just_fits, places, table_name,
    too_big_for,
};
use crate::rng::Rng;
use reference::Objective;
use reference::sample::Sample;

pub fn classes() -> Vec<Class> {
    let mut classes = vec![
        jerk_product("backward"),
        jerk_product("forward"),
        jerk_sum("backward"),
        jerk_sum("forward"),
    ];
    for torques in [THERMAL, VARIATION, BOTH] {
        classes.extend((11..=13).map(|table| product(table, torques)));
    }
    for torques in [THERMAL, BOTH] {
        classes.push(gravity("start sum", torques, &THERMAL, start, 1.0));
        classes.push(gravity("end sum", torques, &THERMAL, end, 1.0));
    }
    for torques in [VARIATION, BOTH] {
        classes.push(gravity(
            "start difference",
            torques,
            &VARIATION,
            start,
            -1.0,
        ));
        classes.push(gravity("end difference", torques, &VARIATION, end, -1.0));
        classes.push(gravity("step difference", torques, &VARIATION, step, -1.0));
    }
    classes
}

/// Products that overflow, of numbers that no row takes, and products that just don't.
pub fn harmless() -> Vec<Class> {
    let mut classes: Vec<Class> = (11..=13).map(unused_product).collect();
    classes.extend((11..=13).map(finite_product));
    classes.push(Class::tame("jerk product, just finite", |rng, sample| {
        let backward = rng.chance(50);
        let (place, r, other) = jerk_row(rng, sample, backward)?;
        sample.table_mut(8)[place] = just_fits(rng, r.max(other))?;
        Some(())
    }));
    classes
}

/// A jerk row's place, 1/spacing of the group wanted, and of the station's other group or 0.
fn jerk_row(rng: &mut Rng, sample: &Sample, backward: bool) -> Option<(usize, f64, f64)> {
    let shape = Shape::of(sample);
    let s = &sample.grid;
    let back = |k: usize| (!shape.first(k)).then(|| 1.0 / (s[k] - s[k - 1]));
    let forth = |k: usize| (!shape.last(k)).then(|| 1.0 / (s[k + 1] - s[k]));
    let (k, place) = choose(rng, &places(sample, 8, |k| shape.moving(k)))?;
    let (wanted, other) = if backward {
        (back(k), forth(k))
    } else {
        (forth(k), back(k))
    };
    Some((place, wanted?, other.unwrap_or(0.0)))
}

/// c·r overflows in one group of a station, and in the other group it doesn't.
fn jerk_product(group: &'static str) -> Class {
    Class::tame(format!("jerk product, {group}"), move |rng, sample| {
        let (place, r, other) = jerk_row(rng, sample, group == "backward")?;
        let (low, high) = (1.01 * other.max(1.0), 0.99 * r);
        if low >= high {
            return None;
        }
        let divisor = low + rng.unit() * (high - low);
        let much = rng.sign() * (f64::MAX / divisor);
        let little = just_fits(rng, r)?;
        let little = little.signum() * little.abs().next_up();
        sample.table_mut(8)[place] = if rng.chance(30) { little } else { much };
        Some(())
    })
}

/// b + c·r (backward) or b − c·r (forward) overflows, and neither of its parts does.
fn jerk_sum(group: &'static str) -> Class {
    Class::tame(format!("jerk sum, {group}"), move |rng, sample| {
        let backward = group == "backward";
        let (place, r, other) = jerk_row(rng, sample, backward)?;
        if r < 0.97 || other > 1.02 * r {
            return None;
        }
        let sign = rng.sign();
        let c = sign * (big(rng) / r);
        let b = sign * big(rng);
        sample.table_mut(8)[place] = c;
        sample.table_mut(7)[place] = if backward { b } else { -b };
        Some(())
    })
}

/// The largest scale of torque i among the objectives chosen, 0 without one.
fn largest_scale(sample: &Sample, i: usize, chosen: impl Fn(&Objective) -> bool) -> f64 {
    let scale = |objective: &Objective| match objective {
        Objective::ThermalEnergy(_, list) | Objective::TotalVariationTorque(_, list) => {
            sample.pool[list.start + i]
        }
        _ => 0.0,
    };
    let objectives = sample.objectives.iter().filter(|one| chosen(one));
    objectives.map(scale).fold(0.0, f64::max)
}

/// The place of a torque number that is read, and the largest scale that it is multiplied by.
fn scaled(rng: &mut Rng, sample: &Sample, shape: &Shape, table: usize) -> Option<(usize, f64)> {
    let ends = |k| table == 13 && shape.resting(k);
    let spots = places(sample, table, |k| shape.torque(k) || ends(k));
    let (k, place) = choose(rng, &spots)?;
    let scale = largest_scale(sample, place % sample.d, |objective| match objective {
        Objective::ThermalEnergy(..) => shape.rooted(k) || ends(k),
        _ => shape.moving(k) || ends(k),
    });
    Some((place, scale))
}

fn product(table: usize, torques: Torques) -> Class {
    let name = format!("{} times scale, {}", table_name(table), torques.name);
    Class::tame(name, move |rng, sample| {
        let shape = Shape::of(sample);
        if !torques.holds(&shape) {
            return None;
        }
        let (place, scale) = scaled(rng, sample, &shape, table)?;
        sample.table_mut(table)[place] = too_big_for(rng, scale)?;
        Some(())
    })
}

fn finite_product(table: usize) -> Class {
    let name = format!("{} times scale, just finite", table_name(table));
    Class::tame(name, move |rng, sample| {
        let shape = Shape::of(sample);
        let (place, scale) = scaled(rng, sample, &shape, table)?;
        sample.table_mut(table)[place] = just_fits(rng, scale)?;
        Some(())
    })
}

/// A torque number that nothing reads: its product overflows, and nothing is written of it.
fn unused_product(table: usize) -> Class {
    let name = format!("unused {} times scale", table_name(table));
    Class::tame(name, move |rng, sample| {
        let shape = Shape::of(sample);
        let ends = |k| table == 13 && shape.resting(k);
        let spots = places(sample, table, |k| !shape.torque(k) && !ends(k));
        let (_, place) = choose(rng, &spots)?;
        let scale = largest_scale(sample, place % sample.d, |_| true);
        sample.table_mut(table)[place] = too_big_for(rng, scale)?;
        Some(())
    })
}

type Pair = fn(&mut Rng, &Shape) -> Option<(usize, usize)>;

fn start(_: &mut Rng, shape: &Shape) -> Option<(usize, usize)> {
    (shape.n0 > 0).then_some((shape.n0, 0))
}

fn end(_: &mut Rng, shape: &Shape) -> Option<(usize, usize)> {
    (shape.n1 > 0).then_some((shape.n - shape.n1, shape.n))
}

fn step(rng: &mut Rng, shape: &Shape) -> Option<(usize, usize)> {
    let k = rng.between(shape.n0, shape.n - shape.n1 - 1);
    Some((k, k + 1))
}

/// Two scaled numbers of table 13, finite by themselves; `reader` adds or subtracts them.
fn gravity(name: &str, torques: Torques, reader: &'static Torques, pair: Pair, sign: f64) -> Class {
    let name = format!("torque g, {name}, {}", torques.name);
    Class::tame(name, move |rng, sample| {
        let shape = Shape::of(sample);
        if !torques.holds(&shape) {
            return None;
        }
        let (k, other) = pair(rng, &shape)?;
        let i = rng.below(sample.d);
        let own = largest_scale(sample, i, |objective| match objective {
            Objective::ThermalEnergy(..) => reader.thermal,
            _ => reader.variation,
        });
        let top = largest_scale(sample, i, |_| true).max(1.0);
        if own < 0.65 * top {
            return None;
        }
        let g = rng.sign() * (big(rng) / top);
        let d = sample.d;
        sample.table_mut(13)[k * d + i] = g;
        sample.table_mut(13)[other * d + i] = sign * g;
        Some(())
    })
}
