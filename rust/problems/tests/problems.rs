//! The generator and the reference: what nothing reads may be anything, demand 3's
//! facts and the owners' ranges hold on whatever passes refusals 1 to 18, and a weight
//! changes nothing but the cost in its owner's columns.

use problems::generate::{sample, shaped, stationary};
use problems::long;
use problems::rng::{Flavour, Rng};
use reference::counts::check_facts;
use reference::sample::Sample;
use reference::{Objective, judge, refusals};

#[test]
fn spoiled_places_are_never_read() {
    let mut spoiled = 0;
    for index in 0..50_000 {
        let mut rng = Rng::of_problem(7, index);
        let n = rng.between(2, 14);
        let ends = stationary(&mut rng, n);
        let (d, count) = (rng.between(1, 4), rng.between(1, 6));
        let sample = shaped(&mut rng, n, ends, d, count, Flavour::Tame);
        let numbers = sample.tables[1..].iter().flatten().chain(&sample.pool);
        spoiled += numbers.filter(|number| !number.is_finite()).count();
        let assembled = judge(&sample.problem()).unwrap();
        refusals::not_finite(&assembled).unwrap();
    }
    assert!(spoiled > 500_000);
}

#[test]
fn facts_of_demand_3() {
    for index in 0..100_000 {
        let mut rng = Rng::of_problem(8, index);
        let sample = sample(&mut rng);
        let problem = sample.problem();
        check_facts(&problem, &judge(&problem).unwrap()).unwrap();
    }
}

/// The largest problem of each sort that the limits allow, or near it.
#[test]
fn facts_at_the_limits() {
    let mut rng = Rng::new(9);
    for (n, ends, d, count) in [
        (65_536, (0, 0), 1, 2),
        (65_536, (32_767, 32_768), 6, 4),
        (65_536, (65_535, 0), 2, 3),
        (2, (0, 1), 32, 16),
        (40, (1, 1), 32, 16),
    ] {
        let sample = shaped(&mut rng, n, ends, d, count, Flavour::Tame);
        let problem = sample.problem();
        check_facts(&problem, &judge(&problem).unwrap()).unwrap();
    }
}

/// On long paths too, some with 256 rows at many stations; about as many entries as allowed.
#[test]
fn facts_on_long_paths() {
    let (mut full, most) = (0, 2_000_000);
    for index in 0..8 {
        let mut rng = Rng::of_problem(11, index);
        let stations = rng.between(4_097, 65_537);
        let sample = long::sample(&mut rng, stations, most);
        let problem = sample.problem();
        let assembled = judge(&problem).unwrap();
        check_facts(&problem, &assembled).unwrap();
        assert!(assembled.counts().entries < 2 * most + 40 * stations);
        full += usize::from(long::full_stations(&sample).iter().any(|&many| many > 100));
    }
    assert!(full > 1);
}

/// Gives one objective another weight; Linear is left out.
fn reweighed(rng: &mut Rng, sample: &Sample, which: usize) -> Option<Sample> {
    let mut other = sample.clone();
    match &mut other.objectives[which] {
        Objective::Time(weight)
        | Objective::ThermalEnergy(weight, _)
        | Objective::TotalVariationTorque(weight, _) => *weight = 10.0 * rng.unit(),
        Objective::Linear(..) => return None,
    }
    Some(other)
}

fn bits(numbers: &[f64]) -> Vec<u64> {
    numbers.iter().map(|number| number.to_bits()).collect()
}

/// Request 6: only the cost changes, and only in the columns of the objective.
#[test]
fn a_weight_changes_only_its_columns() {
    let mut changed = 0;
    for index in 0..20_000 {
        let mut rng = Rng::of_problem(10, index);
        let n = rng.between(2, 10);
        let ends = stationary(&mut rng, n);
        let (d, count) = (rng.between(1, 3), rng.between(1, 5));
        let sample = shaped(&mut rng, n, ends, d, count, Flavour::Tame);
        let which = rng.below(count);
        let Some(other) = reweighed(&mut rng, &sample, which) else {
            continue;
        };
        let (a, b) = (judge(&sample.problem()), judge(&other.problem()));
        let (a, b) = (a.unwrap(), b.unwrap());
        assert_eq!((&a.row, &a.col), (&b.row, &b.col));
        assert_eq!((bits(&a.val), bits(&a.b)), (bits(&b.val), bits(&b.b)));
        assert_eq!(
            (&a.cones.kinds, &a.cones.dims),
            (&b.cones.kinds, &b.cones.dims)
        );
        assert_eq!(a.index, b.index);
        let own = &a.index[8 * (2 + which)..8 * (3 + which)];
        let (first, end) = (own[3] as usize, (own[3] + own[7]) as usize);
        let (a, b) = (bits(&a.q_object), bits(&b.q_object));
        assert_eq!((&a[..first], &a[end..]), (&b[..first], &b[end..]));
        changed += usize::from(a != b);
    }
    assert!(changed > 10_000);
}
