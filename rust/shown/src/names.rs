//! Names of columns, owners and kinds of cones.

use reference::Objective;
use reference::owners::{Asked, owner_of};
use reference::sample::Sample;

/// Who owns what, by the reference's index.
pub struct Owners {
    pub index: Vec<u64>,
    pub objectives: Vec<Objective>,
    pub stations: usize,
}

/// An owner of rows and columns.
#[derive(Clone, Copy)]
enum Owner {
    Standard,
    Root,
    Objective(usize, Objective),
    Nobody,
}

impl Owners {
    pub fn new(sample: &Sample, index: Vec<u64>) -> Self {
        Self {
            index,
            objectives: sample.objectives[..sample.count].to_vec(),
            stations: sample.grid.len(),
        }
    }

    fn owner(&self, asked: Asked, number: usize) -> Owner {
        match owner_of(asked, &self.index, self.objectives.len(), number) {
            Ok(0) => Owner::Standard,
            Ok(1) => Owner::Root,
            Ok(owner) => {
                let i = owner as usize - 2;
                Owner::Objective(i, self.objectives[i])
            }
            Err(_) => Owner::Nobody,
        }
    }

    /// The owner of a row, in words.
    pub fn of_row(&self, row: usize) -> String {
        match self.owner(Asked::Row, row) {
            Owner::Standard => "standard rows".to_string(),
            Owner::Root => "root stage".to_string(),
            Owner::Objective(i, objective) => format!("objective {i}, {}", kind(objective)),
            Owner::Nobody => "nobody".to_string(),
        }
    }

    /// The word of a column's sort. The index is not asked for a and b.
    pub fn word(&self, column: usize) -> &'static str {
        if column < self.stations {
            return "a";
        }
        if column < 2 * self.stations {
            return "b";
        }
        match self.owner(Asked::Column, column) {
            Owner::Root => "xi",
            Owner::Objective(_, Objective::Time(..)) => "eta",
            Owner::Objective(_, Objective::ThermalEnergy(..))
            | Owner::Objective(_, Objective::TotalVariationTorque(..)) => "t",
            Owner::Standard | Owner::Objective(_, Objective::Linear(..)) | Owner::Nobody => "?",
        }
    }

    /// The words of so many columns.
    pub fn words(&self, columns: usize) -> Vec<&'static str> {
        (0..columns).map(|column| self.word(column)).collect()
    }
}

/// Each column's word with how many of its sort stand before it.
pub fn numbered(words: &[&str]) -> Vec<String> {
    let before = |at: usize| {
        words[..at]
            .iter()
            .filter(|&word| *word == words[at])
            .count()
    };
    (0..words.len())
        .map(|at| format!("{}{}", words[at], before(at)))
        .collect()
}

fn kind(objective: Objective) -> &'static str {
    match objective {
        Objective::Time(..) => "Time",
        Objective::ThermalEnergy(..) => "ThermalEnergy",
        Objective::TotalVariationTorque(..) => "TotalVariationTorque",
        Objective::Linear(..) => "Linear",
    }
}

/// A cone's kind by document 01's number.
pub fn cone(kind: u8) -> &'static str {
    match kind {
        0 => "zero",
        1 => "nonnegative",
        2 => "second-order",
        _ => "unknown",
    }
}
