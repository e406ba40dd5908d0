//! What the worked problems are chosen for, and what the fixed list's program has room for.

use worked::linear::{Side, column, total};
use worked::orders::ORDERS;
use worked::{PLANS, answer, worked};

/// Places in the program that replays the fixed list.
const ROOM: usize = 128;

#[test]
fn as_published_and_within_the_room() {
    for problem in &worked() {
        let s = &problem.sample;
        let tables: usize = s.tables.iter().map(Vec::len).sum();
        let floats = s.grid.len() + tables + s.pool.len();
        let counts = answer(problem).counts().numbers();
        println!("{}: {floats} floats, counts {counts:?}", problem.name);
        assert!(floats <= ROOM && counts.iter().all(|&count| count <= ROOM));
    }
}

#[test]
fn no_order_is_hidden() {
    let problems = worked();
    for order in ORDERS {
        let told = problems.iter().any(|p| (order.told_by)(&p.sample));
        assert!(told, "hidden: {}", order.name);
    }
}

#[test]
fn seeds_are_the_first() {
    for plan in &PLANS {
        assert_eq!(plan.first_seed(), plan.seed, "{}", plan.name);
    }
}

/// Linear's cost in the published order is the one that is written.
#[test]
fn linear_as_written() {
    for problem in worked().iter().filter(|p| p.name != "time") {
        let written = answer(problem).q_object;
        for side in [Side::Start, Side::End] {
            let (cost, at) = (total(&problem.sample, side), column(&problem.sample, side));
            assert_eq!(cost.to_bits(), written[at].to_bits(), "{}", problem.name);
        }
    }
}

/// Each kind once and twice in a problem, and each count from 0 to 3 at each end.
#[test]
fn all_sorts() {
    use reference::Objective::{Linear, ThermalEnergy, Time, TotalVariationTorque};
    let problems = worked();
    let kinds: [fn(&reference::Objective) -> bool; 4] = [
        |o| matches!(o, Time(..)),
        |o| matches!(o, ThermalEnergy(..)),
        |o| matches!(o, TotalVariationTorque(..)),
        |o| matches!(o, Linear(..)),
    ];
    for kind in kinds {
        for times in 1..=2 {
            let has = |s: &reference::sample::Sample| {
                s.objectives[..s.count].iter().filter(|o| kind(o)).count() == times
            };
            assert!(problems.iter().any(|problem| has(&problem.sample)));
        }
    }
    for count in 0..=3 {
        let ends = || problems.iter().map(|p| p.sample.num_stationary);
        assert!(ends().any(|(n0, _)| n0 == count) && ends().any(|(_, n1)| n1 == count));
    }
}
