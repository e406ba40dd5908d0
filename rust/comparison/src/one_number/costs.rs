//! Finite numbers whose cost overflows, while all rows stay finite.

use super::Class;
use super::places::{Shape, big, choose, just_fits, linears, stations, too_big_for};
use crate::rng::Rng;
use reference::formulation::get_weight_a_topp3;
use reference::sample::Sample;
use reference::{Objective, Part};

pub fn classes() -> Vec<Class> {
    vec![
        Class::tame("Time weight times weight", time),
        Class::tame("four times the thermal weight", four_times),
        Class::tame("thermal cost, xi", thermal_xi),
        Class::tame("thermal cost, start", |rng, sample| {
            thermal_end(rng, sample, Shape::resting_start)
        }),
        Class::tame("thermal cost, end", |rng, sample| {
            thermal_end(rng, sample, Shape::resting_end)
        }),
        Class::tame("Linear product, a", |rng, s| product(rng, s, |l| l.1)),
        Class::tame("Linear product, b", |rng, s| product(rng, s, |l| l.2)),
        Class::tame("Linear product, start part", |rng, sample| {
            part_product(rng, sample, Side::Start)
        }),
        Class::tame("Linear product, end part", |rng, sample| {
            part_product(rng, sample, Side::End)
        }),
        Class::tame("Linear sum in a term, start part", |rng, sample| {
            part_sum(rng, sample, Side::Start)
        }),
        Class::tame("Linear sum in a term, end part", |rng, sample| {
            part_sum(rng, sample, Side::End)
        }),
        Class::tame("Linear running sum of two, a", |rng, s| {
            two(rng, s, |l| l.1)
        }),
        Class::tame("Linear running sum of two, b", |rng, s| {
            two(rng, s, |l| l.2)
        }),
        Class::tame("Linear running sum of one, start", |rng, sample| {
            one(rng, sample, Side::Start)
        }),
        Class::tame("Linear running sum of one, end", |rng, sample| {
            one(rng, sample, Side::End)
        }),
    ]
}

/// Costs that just stay finite.
pub fn harmless() -> Vec<Class> {
    vec![
        Class::tame("thermal cost, just finite", |rng, sample| {
            let shape = Shape::of(sample);
            let top = thermal(sample).into_iter().fold(0.0, |top, w| w.max(top));
            let k = choose(rng, &stations(&shape, |k| shape.rooted(k)))?;
            sample.table_mut(10)[k] = just_fits(rng, 4.0 * top)?;
            Some(())
        }),
        Class::tame("Linear product, just finite", |rng, sample| {
            let shape = Shape::of(sample);
            let [(weight, alpha, beta)] = linears(sample)[..] else {
                return None;
            };
            let alone = |k| shape.moving(k) && !shape.end_part(k);
            let k = choose(rng, &stations(&shape, alone))?;
            let list = rng.pick(&[alpha, beta]);
            sample.pool[list.start + k] = just_fits(rng, weight)?;
            Some(())
        }),
    ]
}

/// The weights of the objectives of the kind wanted.
fn weights(
    sample: &mut Sample,
    wanted: impl Fn(&mut Objective) -> Option<&mut f64>,
) -> Vec<&mut f64> {
    sample.objectives.iter_mut().filter_map(wanted).collect()
}

fn time(rng: &mut Rng, sample: &mut Sample) -> Option<()> {
    let shape = Shape::of(sample);
    let time = get_weight_a_topp3(&sample.grid, sample.num_stationary);
    let largest = stations(&shape, |k| shape.rooted(k))
        .into_iter()
        .fold(0.0, |largest, k| time[k].max(largest));
    let mut found = weights(sample, |objective| match objective {
        Objective::Time(weight) => Some(weight),
        _ => None,
    });
    if found.is_empty() {
        return None;
    }
    let which = rng.below(found.len());
    *found[which] = too_big_for(rng, largest)?.abs();
    Some(())
}

/// The weights of the ThermalEnergy objectives.
fn thermal(sample: &mut Sample) -> Vec<&mut f64> {
    weights(sample, |objective| match objective {
        Objective::ThermalEnergy(weight, _) => Some(weight),
        _ => None,
    })
}

fn four_times(rng: &mut Rng, sample: &mut Sample) -> Option<()> {
    let shape = Shape::of(sample);
    // The ends take the weight itself, which is to stay without effect.
    let small = |k: usize| sample.table(10).get(k).is_some_and(|w| w.abs() <= 1.0);
    if (shape.n0 > 0 && !small(0)) || (shape.n1 > 0 && !small(shape.n)) {
        return None;
    }
    let mut found = thermal(sample);
    if found.is_empty() {
        return None;
    }
    let which = rng.below(found.len());
    *found[which] = f64::MAX * (0.26 + 0.7 * rng.unit());
    Some(())
}

fn thermal_xi(rng: &mut Rng, sample: &mut Sample) -> Option<()> {
    let shape = Shape::of(sample);
    let found: Vec<f64> = thermal(sample).into_iter().map(|weight| *weight).collect();
    let weight = choose(rng, &found)?;
    let k = choose(rng, &stations(&shape, |k| shape.rooted(k)))?;
    sample.table_mut(10)[k] = too_big_for(rng, 4.0 * weight)?;
    Some(())
}

fn thermal_end(
    rng: &mut Rng,
    sample: &mut Sample,
    station: fn(&Shape, usize) -> bool,
) -> Option<()> {
    let shape = Shape::of(sample);
    let found: Vec<f64> = thermal(sample).into_iter().map(|weight| *weight).collect();
    let weight = choose(rng, &found)?;
    let k = choose(rng, &stations(&shape, |k| station(&shape, k)))?;
    sample.table_mut(10)[k] = too_big_for(rng, weight)?;
    Some(())
}

/// Weight, alpha and beta of a Linear objective.
type Linear = (f64, Part, Part);

/// Weight times alpha or beta of a moving station.
fn product(rng: &mut Rng, sample: &mut Sample, list: fn(Linear) -> Part) -> Option<()> {
    let shape = Shape::of(sample);
    let linear = choose(rng, &linears(sample))?;
    let k = choose(rng, &stations(&shape, |k| shape.moving(k)))?;
    sample.pool[list(linear).start + k] = too_big_for(rng, linear.0)?;
    Some(())
}

#[derive(Clone, Copy)]
enum Side {
    Start,
    End,
}

/// A term of Linear's start or end part: ((weight·gamma)·root)·bracket.
struct Term {
    k: usize,
    /// Where the moving stretch begins or ends; the term goes to its cost.
    edge: usize,
    /// Table and place of the root.
    root: (usize, usize),
    distance: f64,
    /// Weight times gamma.
    factor: f64,
    /// alpha + beta / (1.5·distance)
    bracket: f64,
}

fn term(rng: &mut Rng, sample: &Sample, linear: Linear, side: Side) -> Option<Term> {
    let shape = Shape::of(sample);
    let (edge, end, count, table) = match side {
        Side::Start => (shape.n0, 0, shape.n0, 14),
        Side::End => (shape.n - shape.n1, shape.n, shape.n1, 15),
    };
    let k = (count > 1).then(|| rng.between(1, count - 1))?;
    let s = &sample.grid;
    let (weight, alpha, beta) = linear;
    let distance = s[k] - s[end];
    Some(Term {
        k,
        edge,
        root: (table, k - 1),
        distance,
        factor: weight * (distance / (s[edge] - s[end])),
        bracket: sample.pool[alpha.start + k] + sample.pool[beta.start + k] / (1.5 * distance),
    })
}

/// A root that makes a term overflow.
fn part_product(rng: &mut Rng, sample: &mut Sample, side: Side) -> Option<()> {
    let linear = choose(rng, &linears(sample))?;
    let term = term(rng, sample, linear, side)?;
    let root = too_big_for(rng, (term.factor * term.bracket).abs())?;
    // Rounding on the way may have left it finite.
    if (term.factor * root * term.bracket).is_finite() {
        return None;
    }
    sample.table_mut(term.root.0)[term.root.1] = root;
    Some(())
}

/// Alpha and beta whose bracket overflows.
fn part_sum(rng: &mut Rng, sample: &mut Sample, side: Side) -> Option<()> {
    let linear = choose(rng, &linears(sample))?;
    let term = term(rng, sample, linear, side)?;
    let divisor = 1.5 * term.distance;
    if divisor.abs() > 1.0 {
        return None;
    }
    let sign = rng.sign();
    sample.pool[linear.1.start + term.k] = sign * big(rng);
    sample.pool[linear.2.start + term.k] = sign * big(rng) * divisor;
    Some(())
}

/// A number whose product with the weight is large and finite, if the weight is large enough.
fn large_with(rng: &mut Rng, weight: f64) -> Option<f64> {
    (weight > 0.65).then(|| big(rng) / weight.max(1.0))
}

/// Two Linear objectives with large costs for the same column.
fn two(rng: &mut Rng, sample: &mut Sample, list: fn(Linear) -> Part) -> Option<()> {
    let shape = Shape::of(sample);
    let found = linears(sample);
    let first = rng.below(found.len().max(2) - 1);
    let pair = [*found.get(first)?, *found.get(first + 1)?];
    // The end part could take the sum back where it reads the same number.
    let alone = |k| shape.moving(k) && !shape.end_part(k);
    let k = choose(rng, &stations(&shape, alone))?;
    let sign = rng.sign();
    for linear in pair {
        sample.pool[list(linear).start + k] = sign * large_with(rng, linear.0)?;
    }
    Some(())
}

/// A large term and a large alpha of one Linear objective, for the same column.
fn one(rng: &mut Rng, sample: &mut Sample, side: Side) -> Option<()> {
    let shape = Shape::of(sample);
    // The first one: what others have added before could take the sum back.
    let linear = *linears(sample).first()?;
    let term = term(rng, sample, linear, side)?;
    let whole = term.factor * term.bracket;
    if whole.abs() < 1.0 || term.bracket.abs() < 1.0 || shape.end_part(term.edge) {
        return None;
    }
    let sign = rng.sign();
    sample.table_mut(term.root.0)[term.root.1] = sign * big(rng) / whole;
    sample.pool[linear.1.start + term.edge] = sign * large_with(rng, linear.0)?;
    Some(())
}
