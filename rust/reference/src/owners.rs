//! Request 6's question, whose a row or a column is, for any index.

use crate::refusals::{Refusal, short_index};
use std::ops::Range;

/// What is asked for.
#[derive(Clone, Copy, Debug, PartialEq, Eq)]
pub enum Asked {
    Row,
    Column,
}

impl Asked {
    /// The place of the first row or column among an owner's eight numbers.
    fn place(self) -> usize {
        match self {
            Self::Row => 1,
            Self::Column => 3,
        }
    }

    /// What an owner has of this sort; the end is first + length, beyond 64 bits too.
    pub fn range(self, owner: &[u64]) -> Range<u128> {
        let first = u128::from(owner[self.place()]);
        let len = u128::from(owner[self.place() + 4]);
        first..first + len
    }
}

/// The lowest owner that has the row or column: 0 standard rows, 1 root stage, 2 + i objective i.
///
/// 28 if the index is too short for so many objectives, 29 if no owner has it.
pub fn owner_of(
    asked: Asked,
    index: &[u64],
    objectives: usize,
    number: usize,
) -> Result<u64, Refusal> {
    short_index(objectives, index.len())?;
    let mut owners = index.chunks_exact(8).take(objectives + 2);
    match owners.position(|owner| asked.range(owner).contains(&(number as u128))) {
        Some(owner) => Ok(owner as u64),
        None => Err(Refusal {
            number: 29,
            place: 0,
        }),
    }
}
