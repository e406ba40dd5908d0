//! Worked problems: small ones whose numbers are unequal and whose sums and products round, so that
//! a wrong place, sign or order shows. They go into the fixed list with the published files' own
//! answers.

pub mod linear;
pub mod list;
mod numbers;
pub mod orders;

pub use list::{PLANS, Worked};
use published::against::assert_same;
use published::published;
use reference::{Assembled, judge, refusals};

pub fn worked() -> Vec<Worked> {
    PLANS.iter().map(list::Plan::worked).collect()
}

/// What the published files hand to the solver, found equal bit for bit to the reference's, which
/// has the index beside it.
///
/// Stops where they differ, where the problem is refused, or where a number is not finite.
pub fn answer(problem: &Worked) -> Assembled {
    let lent = problem.sample.problem();
    let ours = judge(&lent).expect("an accepted problem");
    let given = published(&lent).expect("the published files assemble it");
    assert_same(&given, &ours);
    refusals::not_finite(&ours).expect("finite numbers");
    ours
}
