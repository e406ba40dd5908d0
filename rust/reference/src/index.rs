//! Request 6's index, noted while the core runs.

use crate::Counts;

/// Eight numbers for each owner: first entry, row, cone and column, then how many of each.
///
/// Owners are the standard rows, the root stage, and each objective.
#[derive(Clone, Debug, Default)]
pub struct Index(Vec<u64>);

impl Index {
    /// Notes the next owner, by the tallies before and after its part.
    pub fn note(&mut self, before: Counts, after: Counts) {
        let (before, after) = (before.numbers(), after.numbers());
        self.0.extend(before.map(|first| first as u64));
        let lengths = before.iter().zip(after).map(|(first, end)| end - first);
        self.0.extend(lengths.map(|len| len as u64));
    }

    pub fn into_numbers(self) -> Vec<u64> {
        self.0
    }
}
