//! What the published files assemble, with the reference's index beside it.

use crate::names::Owners;
use published::against::assert_same;
use published::{Given, published};
use reference::sample::Sample;
use reference::{Refusal, judge, refusals};

pub struct Answer {
    pub given: Given,
    pub owners: Owners,
}

/// The published numbers, or the reference's refusal.
///
/// Stops where the published files differ from the reference: then its index would be another
/// problem's.
pub fn answer(sample: &Sample) -> Result<Answer, Refusal> {
    let lent = sample.problem();
    let ours = judge(&lent)?;
    refusals::not_finite(&ours)?;
    let given = published(&lent).expect("the published files assemble it");
    assert_same(&given, &ours);
    let owners = Owners::new(sample, ours.index);
    Ok(Answer { given, owners })
}
