//! A NaN or an infinity at one place that nothing reads, and the largest doubles where they are.

use super::Class;
use super::places::{
    BOTH, Shape, THERMAL, Torques, VARIATION, choose, linears, places, spoil, table_name,
};
use crate::generate::read_of_pool;
use crate::rng::Rng;
use reference::Part;
use reference::sample::Sample;

pub fn classes() -> Vec<Class> {
    let mut classes = bounds();
    classes.extend(rows());
    classes.push(thermal_weight("resting interior", |shape, k| {
        0 < k && k < shape.n
    }));
    classes.push(thermal_weight("end with count 0", |shape, k| {
        k == 0 || k == shape.n
    }));
    for torques in [THERMAL, VARIATION, BOTH] {
        classes.extend((11..=13).map(|table| torque(table, torques)));
    }
    classes.extend((10..=15).map(uncounted));
    classes.extend(pool());
    classes.push(Class::new("largest number, one place", |rng, sample| {
        largest(rng, sample, false)
    }));
    classes.push(Class::new("largest numbers, whole table", |rng, sample| {
        largest(rng, sample, true)
    }));
    classes
}

/// Bounds of an end with count 0, and amax of stations without a row for it.
fn bounds() -> Vec<Class> {
    vec![
        Class::new("start maximum", |rng, sample| {
            sample.start.maximum = (sample.num_stationary.0 == 0).then(|| rng.not_finite())?;
            Some(())
        }),
        Class::new("start minimum", |rng, sample| {
            sample.start.minimum = (sample.num_stationary.0 == 0).then(|| rng.not_finite())?;
            Some(())
        }),
        Class::new("end maximum", |rng, sample| {
            sample.end.maximum = (sample.num_stationary.1 == 0).then(|| rng.not_finite())?;
            Some(())
        }),
        Class::new("end minimum", |rng, sample| {
            sample.end.minimum = (sample.num_stationary.1 == 0).then(|| rng.not_finite())?;
            Some(())
        }),
        Class::new("amax", |rng, sample| {
            let shape = Shape::of(sample);
            let (_, place) = choose(rng, &places(sample, 2, |k| !shape.inner(k)))?;
            sample.table_mut(2)[place] = rng.pick(&[f64::NAN, -f64::NAN, f64::NEG_INFINITY]);
            Some(())
        }),
    ]
}

/// Rows of stations outside the stretch that the rows are written for.
fn rows() -> Vec<Class> {
    let acc = (3..=5).map(|table| {
        Class::new(table_name(table), move |rng, sample| {
            let shape = Shape::of(sample);
            spoil(rng, sample, table, |k| !shape.inner(k))
        })
    });
    let jerk = (6..=9).map(|table| {
        Class::new(table_name(table), move |rng, sample| {
            let shape = Shape::of(sample);
            spoil(rng, sample, table, |k| !shape.moving(k))
        })
    });
    acc.chain(jerk).collect()
}

fn thermal_weight(name: &str, station: fn(&Shape, usize) -> bool) -> Class {
    Class::new(format!("thermal weight, {name}"), move |rng, sample| {
        let shape = Shape::of(sample);
        let unread = |k| !shape.rooted(k) && !shape.resting(k);
        if !shape.has.thermal {
            return None;
        }
        spoil(rng, sample, 10, |k| unread(k) && station(&shape, k))
    })
}

fn torque(table: usize, torques: Torques) -> Class {
    let name = format!("{}, {}", table_name(table), torques.name);
    Class::new(name, move |rng, sample| {
        let shape = Shape::of(sample);
        let ends = |k| table == 13 && shape.resting(k);
        if !torques.holds(&shape) {
            return None;
        }
        spoil(rng, sample, table, |k| !shape.torque(k) && !ends(k))
    })
}

/// A table that doesn't count, of its usual length or of any.
fn uncounted(table: usize) -> Class {
    Class::new(
        format!("{}, uncounted", table_name(table)),
        move |rng, sample| {
            let has = Shape::of(sample).has;
            let counts = match table {
                10 => has.thermal,
                11..=13 => has.thermal || has.variation,
                _ => has.linear,
            };
            if counts {
                return None;
            }
            if sample.table(table).is_empty() || rng.chance(50) {
                let len = rng.between(1, 6);
                sample.table_mut(table).resize(len, 1.0);
            }
            let place = rng.below(sample.table(table).len());
            sample.table_mut(table)[place] = rng.not_finite();
            Some(())
        },
    )
}

/// Places of the pool: alpha and beta of stations without a cost, and what is in no list.
fn pool() -> [Class; 3] {
    [
        Class::new("alpha", |rng, sample| {
            let (_, alpha, _) = choose(rng, &linears(sample))?;
            spoil_pool(rng, sample, |at| inside(alpha, at))
        }),
        Class::new("beta", |rng, sample| {
            let (_, _, beta) = choose(rng, &linears(sample))?;
            spoil_pool(rng, sample, |at| inside(beta, at))
        }),
        Class::new("pool, in no list", |rng, sample| {
            let lists = linears(sample);
            spoil_pool(rng, sample, |at| {
                let mut lists = lists.iter();
                lists.all(|&(_, alpha, beta)| !inside(alpha, at) && !inside(beta, at))
            })
        }),
    ]
}

fn inside(list: Part, at: usize) -> bool {
    (list.start..list.start + list.len).contains(&at)
}

fn spoil_pool(rng: &mut Rng, sample: &mut Sample, wanted: impl Fn(usize) -> bool) -> Option<()> {
    let read = read_of_pool(sample);
    let unread: Vec<usize> = (0..read.len())
        .filter(|&at| !read[at] && wanted(at))
        .collect();
    let place = choose(rng, &unread)?;
    sample.pool[place] = rng.not_finite();
    Some(())
}

/// The largest doubles in a table whose numbers are written as they are.
fn largest(rng: &mut Rng, sample: &mut Sample, all: bool) -> Option<()> {
    let table = rng.pick(&[3, 4, 5, 6, 9]);
    let len = sample.table(table).len();
    if len == 0 {
        return None;
    }
    let one = rng.below(len);
    for place in 0..len {
        if all || place == one {
            sample.table_mut(table)[place] = rng.sign() * f64::MAX;
        }
    }
    Some(())
}
