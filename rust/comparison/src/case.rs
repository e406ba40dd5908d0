//! A problem as the library takes it, and as the reference does.

use crate::rng::Rng;
use copp3_assembly::raw::{Job, Record, Records, Tables};
use copp3_assembly::{Boundary, Bounds};
use reference::sample::Sample;
use reference::{Assembled, Objective, Refusal};

/// A problem, with kinds of objective records that the reference's enum can't hold.
#[derive(Clone)]
pub struct Case {
    pub sample: Sample,
    pub kinds: [Option<u64>; 16],
}

impl Case {
    pub fn new(sample: Sample) -> Self {
        let kinds = [None; 16];
        Self { sample, kinds }
    }

    /// The answer of the reference before any buffer is looked at.
    pub fn judge(&self) -> Result<Assembled, Refusal> {
        let looked_at = self.sample.count.min(16);
        match self.kinds[..looked_at].iter().position(Option::is_some) {
            Some(index) => Err(Refusal {
                number: 40,
                place: index as u64,
            }),
            None => reference::judge(&self.sample.problem()),
        }
    }

    pub fn job(&self) -> Job {
        let sample = &self.sample;
        Job {
            boundary: boundary(sample),
            start: bounds(sample.start),
            end: bounds(sample.end),
            d: sample.d,
            n0: sample.num_stationary.0,
            n1: sample.num_stationary.1,
            count: sample.count,
        }
    }

    /// The records, with junk in every field and record that isn't looked at.
    pub fn records(&self, rng: &mut Rng) -> Records {
        let mut records = Records::default();
        for (i, record) in records.items.iter_mut().enumerate() {
            *record = junk(rng);
            if i < self.sample.count {
                match self.sample.objectives.get(i) {
                    Some(objective) => write(record, objective),
                    // Past what there is (count above 16, or damaged): any known kind.
                    None => record.kind %= 4,
                }
            }
            record.kind = self.kinds[i].unwrap_or(record.kind);
        }
        records
    }

    pub fn tables(&self) -> Tables<'_> {
        let p = self.sample.problem();
        Tables {
            grid: p.grid,
            acc_rows: p.acc_rows,
            jerk_rows: p.jerk_rows,
            amax: p.amax,
            acc_a: p.acc_a,
            acc_b: p.acc_b,
            acc_max: p.acc_max,
            jerk_a: p.jerk_a,
            jerk_b: p.jerk_b,
            jerk_c: p.jerk_c,
            jerk_max: p.jerk_max,
            thermal: p.thermal,
            torque_a: p.torque_a,
            torque_b: p.torque_b,
            torque_g: p.torque_g,
            start_roots: p.start_roots,
            end_roots: p.end_roots,
            pool: p.pool,
        }
    }

    /// The objectives in the wrapper's own type, if its problem can say the same as this case.
    pub fn ordinary(&self) -> Option<Vec<copp3_assembly::Objective>> {
        let plain = self.kinds.iter().all(Option::is_none);
        if !plain || self.sample.count != self.sample.objectives.len() {
            return None;
        }
        Some(self.sample.objectives.iter().map(ordinary).collect())
    }

    /// The wrapper's problem with these objectives.
    pub fn problem<'a>(
        &'a self,
        objectives: &'a [copp3_assembly::Objective],
    ) -> copp3_assembly::Problem<'a> {
        let (job, t) = (self.job(), self.tables());
        copp3_assembly::Problem {
            boundary: job.boundary,
            start: job.start,
            end: job.end,
            d: job.d,
            n0: job.n0,
            n1: job.n1,
            objectives,
            grid: t.grid,
            acc_rows: t.acc_rows,
            jerk_rows: t.jerk_rows,
            amax: t.amax,
            acc_a: t.acc_a,
            acc_b: t.acc_b,
            acc_max: t.acc_max,
            jerk_a: t.jerk_a,
            jerk_b: t.jerk_b,
            jerk_c: t.jerk_c,
            jerk_max: t.jerk_max,
            thermal: t.thermal,
            torque_a: t.torque_a,
            torque_b: t.torque_b,
            torque_g: t.torque_g,
            start_roots: t.start_roots,
            end_roots: t.end_roots,
            pool: t.pool,
        }
    }
}

fn boundary(sample: &Sample) -> Boundary {
    Boundary {
        initial_a: sample.boundary.a.0,
        terminal_a: sample.boundary.a.1,
        initial_b: sample.boundary.b.0,
        terminal_b: sample.boundary.b.1,
    }
}

fn bounds(bounds: reference::Bounds) -> Bounds {
    Bounds {
        maximum: bounds.maximum,
        minimum: bounds.minimum,
    }
}

fn junk(rng: &mut Rng) -> Record {
    Record {
        kind: rng.pick(&[0, 1, 2, 3, 4, u64::MAX]),
        weight: f64::from_bits(rng.bits()),
        start: rng.bits() as usize,
        len: rng.bits() as usize,
        start2: rng.bits() as usize,
        len2: rng.bits() as usize,
    }
}

/// Writes what the kind uses, and leaves the rest as it is.
pub fn write(record: &mut Record, objective: &Objective) {
    let (kind, weight) = match *objective {
        Objective::Time(weight) => (0, weight),
        Objective::ThermalEnergy(weight, _) => (1, weight),
        Objective::TotalVariationTorque(weight, _) => (2, weight),
        Objective::Linear(weight, ..) => (3, weight),
    };
    (record.kind, record.weight) = (kind, weight);
    match *objective {
        Objective::Time(_) => {}
        Objective::ThermalEnergy(_, list) | Objective::TotalVariationTorque(_, list) => {
            (record.start, record.len) = (list.start, list.len);
        }
        Objective::Linear(_, alpha, beta) => {
            (record.start, record.len) = (alpha.start, alpha.len);
            (record.start2, record.len2) = (beta.start, beta.len);
        }
    }
}

fn ordinary(objective: &Objective) -> copp3_assembly::Objective {
    use copp3_assembly::Objective as Ordinary;
    let part = |part: reference::Part| copp3_assembly::Part {
        start: part.start,
        len: part.len,
    };
    match *objective {
        Objective::Time(weight) => Ordinary::Time { weight },
        Objective::ThermalEnergy(weight, scales) => Ordinary::ThermalEnergy {
            weight,
            scales: part(scales),
        },
        Objective::TotalVariationTorque(weight, scales) => Ordinary::TotalVariationTorque {
            weight,
            scales: part(scales),
        },
        Objective::Linear(weight, alpha, beta) => Ordinary::Linear {
            weight,
            alpha: part(alpha),
            beta: part(beta),
        },
    }
}
