//! The three problems.

use reference::sample::{Sample, ledger};
use reference::{Bounds, Objective, Part};

/// A problem and the line that tells it.
pub struct Shown {
    pub line: &'static str,
    pub sample: Sample,
}

pub fn three() -> [Shown; 3] {
    [
        Shown {
            line: "1. Document 01's case A: grid 0 1 2, one Time objective of weight 1. \
                   It is small, and it has no feasible point.",
            sample: case("A "),
        },
        Shown {
            line: "2. At rest at both ends: grid 0 1 2.5 4 5, an acceleration row and a jerk row \
                   at station 2, all four objectives.",
            sample: resting(),
        },
        Shown {
            line: "3. Two pieces joined so that stations 1 and 2 coincide: grid 0 1 1.",
            sample: case("L "),
        },
    ]
}

/// The ledger's case whose line begins like this.
fn case(letter: &str) -> Sample {
    let mut cases = ledger().into_iter();
    let (sample, _) = cases
        .find(|(_, line)| line.starts_with(letter))
        .expect("a case of the ledger");
    sample
}

/// The second problem, at rest at both ends.
pub fn resting() -> Sample {
    let mut sample = Sample::plain(4, (1, 1), 1);
    sample.grid = vec![0.0, 1.0, 2.5, 4.0, 5.0];
    sample.start = Bounds {
        maximum: 4.0,
        minimum: 0.0,
    };
    sample.end = Bounds {
        maximum: f64::INFINITY,
        minimum: 0.0,
    };
    sample.rows = [vec![0, 0, 1, 0, 0], vec![0, 0, 1, 0, 0]];
    let unbounded = f64::INFINITY;
    *sample.table_mut(2) = vec![unbounded, unbounded, 4.0, unbounded, unbounded];
    for (i, number) in [0.25, 1.0, 3.0, 0.5, 0.25, 1.0, 10.0].iter().enumerate() {
        *sample.table_mut(3 + i) = vec![*number];
    }
    *sample.table_mut(10) = vec![0.5, 1.0, 1.0, 1.0, 0.5];
    *sample.table_mut(11) = vec![1.0, 1.0, 2.0, 1.0, 1.0];
    *sample.table_mut(12) = vec![0.5; 5];
    *sample.table_mut(13) = vec![0.0, 0.25, 0.5, 0.25, 0.0];
    sample.pool = vec![0.5, 2.0, 0.0, 0.0, 0.1, 0.0, 0.0, 0.0, 0.0, 0.0, 0.05, 0.0];
    sample
        .with(Objective::Time(1.0))
        .with(Objective::ThermalEnergy(0.5, part(0, 1)))
        .with(Objective::TotalVariationTorque(0.25, part(1, 1)))
        .with(Objective::Linear(2.0, part(2, 5), part(7, 5)))
}

fn part(start: usize, len: usize) -> Part {
    Part { start, len }
}
