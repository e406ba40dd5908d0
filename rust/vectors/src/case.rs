//! A case of the list: its problem, and what is expected of it.

use crate::expected::Expected;
use crate::file::File;
use reference::sample::Sample;
use reference::{Objective, Part};

/// What makes an expected answer wrong.
pub type Wrong = fn(&mut Expected);

/// A problem, its group, and the buffers to lend.
#[derive(Clone)]
pub struct Case {
    /// L ledger, S shapes, F floats, B buffers, R refusals, P worked problems, W wrong on purpose.
    pub group: u8,
    pub sample: Sample,
    /// An objective record with a kind of its own.
    pub unknown: Option<(usize, u8)>,
    /// Places more than needed in every buffer.
    pub longer: usize,
    /// Buffers with one place fewer; 7 is the index.
    pub short: Vec<usize>,
    pub wrong: Option<Wrong>,
}

impl Case {
    pub fn new(group: u8, sample: Sample) -> Self {
        Self {
            group,
            sample,
            unknown: None,
            longer: 0,
            short: vec![],
            wrong: None,
        }
    }

    /// The case's bytes.
    pub fn bytes(&self) -> Vec<u8> {
        let mut file = File::default();
        self.input(&mut file);
        let mut expected = Expected::of(self);
        if let Some(wrong) = self.wrong {
            wrong(&mut expected);
        }
        expected.write(&mut file);
        file.0
    }

    fn input(&self, file: &mut File) {
        let sample = &self.sample;
        file.byte(self.group);
        let (n0, n1) = sample.num_stationary;
        for number in [sample.d, n0, n1, sample.count] {
            file.long(number);
        }
        let (a, b) = (sample.boundary.a, sample.boundary.b);
        file.floats(&[a.0, a.1, b.0, b.1]);
        for end in [sample.start, sample.end] {
            file.floats(&[end.maximum, end.minimum]);
        }
        self.lengths(file);
        file.floats(&sample.grid);
        sample.rows.iter().for_each(|table| file.row_counts(table));
        sample.tables.iter().for_each(|table| file.floats(table));
        file.floats(&sample.pool);
        for (i, objective) in sample.objectives[..self.records()].iter().enumerate() {
            let kind = self.unknown.filter(|&(index, _)| index == i);
            record(file, objective, kind.map(|(_, kind)| kind));
        }
    }

    fn records(&self) -> usize {
        self.sample.objectives.len().min(16)
    }

    fn lengths(&self, file: &mut File) {
        let sample = &self.sample;
        file.short(sample.grid.len());
        sample.rows.iter().for_each(|table| file.short(table.len()));
        sample
            .tables
            .iter()
            .for_each(|table| file.short(table.len()));
        file.short(sample.pool.len());
        file.short(self.records());
    }
}

fn record(file: &mut File, objective: &Objective, kind: Option<u8>) {
    let none = Part { start: 0, len: 0 };
    let (own, weight, first, second) = match *objective {
        Objective::Time(weight) => (0, weight, none, none),
        Objective::ThermalEnergy(weight, scales) => (1, weight, scales, none),
        Objective::TotalVariationTorque(weight, scales) => (2, weight, scales, none),
        Objective::Linear(weight, alpha, beta) => (3, weight, alpha, beta),
    };
    file.byte(kind.unwrap_or(own));
    file.float(weight);
    for part in [first, second] {
        file.long(part.start);
        file.long(part.len);
    }
}
