//! What the program `show` has to print, by docs/LISTING.md: three problems as text.
//!
//! The numbers are those that the published files hand to the solver. Only who owns a row or a
//! column, and why a problem is refused, comes from the reference, for the published files tell
//! neither.

pub mod answer;
pub mod difference;
pub mod names;
pub mod numbers;
pub mod page;
mod pattern;
pub mod problems;
pub mod sentences;

/// How a row is to be read; stands before the problems.
pub const HEAD: &str = "\
Each row reads: entries + s = right side, where s is the row's slack. \
A zero cone holds s at 0, a nonnegative cone at 0 or above;
in a second-order cone the first s is at least the length of the others. \
What stands after 0x are the 16 hex digits of a double.
In a pattern each line is a row, and + and - are entries above and below 0.
";

/// Everything that `show` prints.
pub fn whole() -> String {
    let mut text = HEAD.to_string();
    for problem in problems::three() {
        text += &format!("\n{}\n{}", problem.line, page::page(&problem.sample));
    }
    text
}
