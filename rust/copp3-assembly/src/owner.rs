//! Whose a row or a column is, by an index.

use crate::raw::{self, OwnerAnswer};
use crate::refusal::Refusal;
use std::fmt;

/// Who has written a row or a column.
#[derive(Clone, Copy, Debug, PartialEq, Eq)]
pub enum Owner {
    StandardRows,
    /// The xi columns and their rows.
    RootStage,
    /// An objective, by its place among the objectives.
    Objective(usize),
}

impl From<u64> for Owner {
    fn from(owner: u64) -> Self {
        match owner {
            0 => Self::StandardRows,
            1 => Self::RootStage,
            _ => Self::Objective((owner - 2) as usize),
        }
    }
}

impl fmt::Display for Owner {
    fn fmt(&self, f: &mut fmt::Formatter) -> fmt::Result {
        match self {
            Self::StandardRows => f.write_str("the standard rows"),
            Self::RootStage => f.write_str("the root stage"),
            Self::Objective(objective) => write!(f, "objective {objective}"),
        }
    }
}

/// The places that an index needs: eight for each owner, two owners more than objectives.
///
/// A number that doesn't fit is the largest one, which no index has.
pub fn index_places(objectives: usize) -> usize {
    objectives.saturating_add(2).saturating_mul(8)
}

fn owner(answer: OwnerAnswer) -> Result<Owner, Refusal> {
    match answer.number {
        0 => Ok(answer.owner.into()),
        number => Err(Refusal::new(number, answer.place)),
    }
}

/// The lowest owner whose rows hold this one.
///
/// Any index is taken, with any number of objectives. One of fewer than [`index_places`] is
/// refused, longer ones are read that far, and a row that no owner has is refused.
pub fn owner_of_row(index: &[u64], objectives: usize, row: usize) -> Result<Owner, Refusal> {
    owner(raw::owner_of_row(index, objectives, row))
}

/// The lowest owner whose columns hold this one; in an assembled index the columns of a and b
/// have none.
pub fn owner_of_column(index: &[u64], objectives: usize, column: usize) -> Result<Owner, Refusal> {
    owner(raw::owner_of_column(index, objectives, column))
}
