//! A row of the table.

use crate::changes::{Change, base};
use comparison::case::Case;

/// Number and place; 0 and 0 for acceptance.
pub type Answer = (u64, u64);

pub const ACCEPTED: Answer = (0, 0);

pub fn refused(number: u64, place: usize) -> Answer {
    (number, place as u64)
}

/// The base problem changed, buffers of just the needed lengths save for those that are one
/// place short (7 is the index), and what the documents answer.
pub struct Row {
    pub text: &'static str,
    pub changes: Vec<Change>,
    pub short: Vec<usize>,
    pub answer: Answer,
}

impl Row {
    pub fn case(&self) -> Case {
        let mut case = base();
        self.changes.iter().for_each(|change| change(&mut case));
        case
    }

    /// "Sizing takes the same input without buffers and gives every refusal tested before 19".
    pub fn sizing(&self) -> Answer {
        match self.answer.0 {
            19 | 20 | 28 => ACCEPTED,
            _ => self.answer,
        }
    }

    /// The row as it is told in a failure.
    pub fn name(&self) -> String {
        let (number, place) = self.answer;
        format!("{} (number {number}, place {place})", self.text)
    }
}

/// Rows, each on a line: changes, buffers that are one place short, answer.
macro_rules! rows {
    ($([$($change:expr),*] $(short [$($buffer:expr),*])? gives $answer:expr;)*) => {
        vec![$(
            $crate::row::Row {
                text: stringify!([$($change),*] $(short [$($buffer),*])? gives $answer),
                changes: vec![$($change),*],
                short: vec![$($($buffer),*)?],
                answer: $answer,
            }
        ),*]
    };
}
pub(crate) use rows;
