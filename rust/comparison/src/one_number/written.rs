//! A NaN or an infinity at one place that a row or a cost reads.

use super::Class;
use super::places::{
    BOTH, Shape, THERMAL, Torques, VARIATION, choose, linears, spoil, stations, table_name,
};

pub fn classes() -> Vec<Class> {
    let mut classes = rows();
    classes.extend(thermal_weights());
    for torques in [THERMAL, VARIATION, BOTH] {
        for table in 11..=13 {
            classes.push(torque(table, "moving", torques, |shape, k| {
                shape.torque(k) && !shape.neighbour(k)
            }));
            classes.push(torque(table, "neighbour", torques, Shape::neighbour));
        }
        classes.push(torque(13, "resting end", torques, Shape::resting));
    }
    classes.extend([root(14), root(15)]);
    for beta in [false, true] {
        classes.extend(lists(beta));
    }
    classes
}

type Stations = fn(&Shape, usize) -> bool;

/// One number of a table at one of the stations, where the problem is of the kind wanted.
fn at(
    name: String,
    table: usize,
    wanted: impl Fn(&Shape) -> bool + 'static,
    station: Stations,
) -> Class {
    Class::new(name, move |rng, sample| {
        let shape = Shape::of(sample);
        if !wanted(&shape) {
            return None;
        }
        spoil(rng, sample, table, |k| station(&shape, k))
    })
}

fn rows() -> Vec<Class> {
    let mut classes = vec![];
    for table in 3..=5 {
        classes.push(at(table_name(table).into(), table, |_| true, Shape::inner));
    }
    let stretches: [(&str, Stations); 3] = [
        ("first", Shape::first),
        ("inner", Shape::inner),
        ("last", Shape::last),
    ];
    for table in 6..=9 {
        for (name, station) in stretches {
            let name = format!("{}, {name} station", table_name(table));
            classes.push(at(name, table, |_| true, station));
        }
    }
    classes
}

fn thermal_weights() -> Vec<Class> {
    let used = |shape: &Shape| shape.has.thermal;
    let stretches: [(&str, Stations); 3] = [
        ("start", Shape::resting_start),
        ("end", Shape::resting_end),
        ("xi", Shape::rooted),
    ];
    stretches
        .map(|(name, station)| at(format!("thermal weight, {name}"), 10, used, station))
        .into()
}

fn torque(table: usize, name: &str, torques: Torques, station: Stations) -> Class {
    let name = format!("{}, {name}, {}", table_name(table), torques.name);
    at(name, table, move |shape| torques.holds(shape), station)
}

fn root(table: usize) -> Class {
    Class::new(table_name(table), move |rng, sample| {
        let roots = sample.table(table).len();
        if !Shape::of(sample).has.linear || roots == 0 {
            return None;
        }
        let place = rng.below(roots);
        sample.table_mut(table)[place] = rng.not_finite();
        Some(())
    })
}

/// Alpha or beta at stations that one part of Linear reads alone, and that several read.
fn lists(beta: bool) -> Vec<Class> {
    let parts: [(&str, [bool; 3]); 3] = [
        ("start part", [true, false, false]),
        ("end part", [false, true, false]),
        ("moving part", [false, false, true]),
    ];
    let mut classes = parts
        .map(|(name, wanted)| list(name, beta, move |read| read == wanted))
        .into_iter()
        .collect::<Vec<_>>();
    classes.push(list("several parts", beta, |read| {
        read.into_iter().filter(|&read| read).count() > 1
    }));
    classes
}

fn list(name: &str, beta: bool, wanted: impl Fn([bool; 3]) -> bool + 'static) -> Class {
    let name = format!("{}, {name}", if beta { "beta" } else { "alpha" });
    Class::new(name, move |rng, sample| {
        let shape = Shape::of(sample);
        let parts = |k| [shape.start_part(k), shape.end_part(k), shape.moving(k)];
        let k = choose(rng, &stations(&shape, |k| wanted(parts(k))))?;
        let (_, alpha, beta_list) = choose(rng, &linears(sample))?;
        let list = if beta { beta_list } else { alpha };
        sample.pool[list.start + k] = rng.not_finite();
        Some(())
    })
}
