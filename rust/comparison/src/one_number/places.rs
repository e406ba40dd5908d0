//! Where document 01 reads: the stations of each row and cost, and their places.

use crate::generate::{Present, present};
use crate::rng::Rng;
use copp3_assembly::TABLES;
use reference::sample::Sample;
use reference::{Objective, Part};

/// The letters of a problem, and the stations that its rows and costs take.
pub struct Shape {
    pub n: usize,
    pub n0: usize,
    pub n1: usize,
    pub has: Present,
}

impl Shape {
    pub fn of(sample: &Sample) -> Self {
        let (n0, n1) = sample.num_stationary;
        let n = sample.grid.len() - 1;
        let has = present(sample);
        Self { n, n0, n1, has }
    }

    /// Acceleration rows and amax.
    pub fn inner(&self, k: usize) -> bool {
        self.n0 < k && k < self.n - self.n1
    }

    /// Jerk rows, torque steps and Linear's moving part.
    pub fn moving(&self, k: usize) -> bool {
        self.n0 <= k && k <= self.n - self.n1
    }

    pub fn first(&self, k: usize) -> bool {
        k == self.n0
    }

    pub fn last(&self, k: usize) -> bool {
        k == self.n - self.n1
    }

    /// The stations that xi numbers belong to.
    pub fn rooted(&self, k: usize) -> bool {
        self.n0.max(1) <= k && k <= self.n - self.n1.max(1)
    }

    pub fn resting_start(&self, k: usize) -> bool {
        self.n0 > 0 && k == 0
    }

    pub fn resting_end(&self, k: usize) -> bool {
        self.n1 > 0 && k == self.n
    }

    pub fn resting(&self, k: usize) -> bool {
        self.resting_start(k) || self.resting_end(k)
    }

    /// Where the moving stretch meets a positive end.
    pub fn neighbour(&self, k: usize) -> bool {
        (self.n0 > 0 && self.first(k)) || (self.n1 > 0 && self.last(k))
    }

    /// Stations whose torque an objective of the problem takes.
    pub fn torque(&self, k: usize) -> bool {
        (self.has.thermal && self.rooted(k)) || (self.has.variation && self.moving(k))
    }

    /// Linear's start part.
    pub fn start_part(&self, k: usize) -> bool {
        1 <= k && k < self.n0
    }

    /// Linear's end part, as the Rust counts its stations.
    pub fn end_part(&self, k: usize) -> bool {
        1 <= k && k < self.n1
    }
}

/// Which torque objectives a class wants.
#[derive(Clone, Copy)]
pub struct Torques {
    pub name: &'static str,
    pub thermal: bool,
    pub variation: bool,
}

pub const THERMAL: Torques = Torques {
    name: "ThermalEnergy",
    thermal: true,
    variation: false,
};

pub const VARIATION: Torques = Torques {
    name: "TotalVariationTorque",
    thermal: false,
    variation: true,
};

pub const BOTH: Torques = Torques {
    name: "both",
    thermal: true,
    variation: true,
};

/// Document 01's name of a table, as classes are called.
pub fn table_name(table: usize) -> &'static str {
    TABLES[table]
}

impl Torques {
    pub fn holds(&self, shape: &Shape) -> bool {
        shape.has.thermal == self.thermal && shape.has.variation == self.variation
    }
}

/// How many numbers of a table (2 to 13) belong to a station.
fn block(sample: &Sample, table: usize, k: usize) -> usize {
    match table {
        3..=5 => sample.rows[0][k] as usize,
        6..=9 => sample.rows[1][k] as usize,
        11..=13 => sample.d,
        _ => 1,
    }
}

/// Station and place of each number of a table (2 to 13) at the stations chosen.
pub fn places(
    sample: &Sample,
    table: usize,
    station: impl Fn(usize) -> bool,
) -> Vec<(usize, usize)> {
    let mut found = vec![];
    let mut at = 0;
    for k in 0..sample.grid.len() {
        let len = block(sample, table, k);
        if station(k) {
            found.extend((at..at + len).map(|place| (k, place)));
        }
        at += len;
    }
    found
}

/// Puts a number that isn't finite at one of the stations chosen.
pub fn spoil(
    rng: &mut Rng,
    sample: &mut Sample,
    table: usize,
    station: impl Fn(usize) -> bool,
) -> Option<()> {
    let (_, place) = choose(rng, &places(sample, table, station))?;
    sample.table_mut(table)[place] = rng.not_finite();
    Some(())
}

/// Weight, alpha and beta of each Linear objective.
pub fn linears(sample: &Sample) -> Vec<(f64, Part, Part)> {
    let linear = |objective: &Objective| match *objective {
        Objective::Linear(weight, alpha, beta) => Some((weight, alpha, beta)),
        _ => None,
    };
    sample.objectives.iter().filter_map(linear).collect()
}

/// One of a list, unless it is empty.
pub fn choose<T: Copy>(rng: &mut Rng, list: &[T]) -> Option<T> {
    (!list.is_empty()).then(|| rng.pick(list))
}

/// The stations chosen, as a list.
pub fn stations(shape: &Shape, station: impl Fn(usize) -> bool) -> Vec<usize> {
    (0..=shape.n).filter(|&k| station(k)).collect()
}

/// From 0.85 to 0.95 of the largest double: two of them overflow when added.
pub fn big(rng: &mut Rng) -> f64 {
    f64::MAX * (0.85 + 0.1 * rng.unit())
}

/// The largest number whose product with `factor` is finite, for factors above 1.05.
pub fn just_fits(rng: &mut Rng, factor: f64) -> Option<f64> {
    if factor <= 1.05 {
        return None;
    }
    let mut number = f64::MAX / factor;
    while (number * factor).is_infinite() {
        number = number.next_down();
    }
    while (number.next_up() * factor).is_finite() {
        number = number.next_up();
    }
    Some(rng.sign() * number)
}

/// A finite number that overflows when multiplied by `factor`: by little or by much.
pub fn too_big_for(rng: &mut Rng, factor: f64) -> Option<f64> {
    let fits = just_fits(rng, factor)?;
    if rng.chance(30) {
        return Some(fits.signum() * fits.abs().next_up());
    }
    let divisor = 1.0 + 0.9 * rng.unit() * (factor - 1.0);
    Some(rng.sign() * (f64::MAX / divisor))
}
