//! The problem as each side takes it, the buffers, and the check that all write the same.

use comparison::case::Case;
use comparison::same;
use copp3_assembly::{Assembly, Objective, Problem};
use published::Given;
use reference::{Assembled, Counts, Reserve, copp3_socp_core};

pub struct Sides<'a> {
    /// For the published files and the reference.
    pub lent: reference::Problem<'a>,
    /// For the library.
    pub problem: Problem<'a>,
    /// The buffers that are reused.
    pub out: Assembly,
    /// What the library writes, to be copied.
    pub written: Assembly,
}

impl<'a> Sides<'a> {
    pub fn new(case: &'a Case, objectives: &'a [Objective]) -> Self {
        let problem = case.problem(objectives);
        let out = copp3_assembly::assemble(&problem).expect("an accepted problem");
        Self {
            lent: case.sample.problem(),
            problem,
            written: out.clone(),
            out,
        }
    }

    /// Compares what the library, the reference and the published files write.
    pub fn check(&self) -> Result<Counts, String> {
        let expected = copp3_socp_core(&self.lent, Reserve::Nothing).expect("feasible bounds");
        same(&self.written, &expected)?;
        let reserved = copp3_socp_core(&self.lent, Reserve::AsPublished).expect("as above");
        same(&self.written, &reserved)?;
        let given = published::published(&self.lent).expect("as above");
        if !same_as_published(&given, &expected) {
            return Err("the published files write something else".into());
        }
        Ok(expected.counts())
    }
}

fn same_as_published(given: &Given, expected: &Assembled) -> bool {
    let longs = |numbers: &[usize]| -> Vec<u64> { numbers.iter().map(|&n| n as u64).collect() };
    let bits =
        |numbers: &[f64]| -> Vec<u64> { numbers.iter().map(|number| number.to_bits()).collect() };
    let (kinds, dims): (Vec<u8>, Vec<usize>) = given.cones.iter().copied().unzip();
    longs(&given.row) == expected.row
        && longs(&given.col) == expected.col
        && bits(&given.val) == bits(&expected.val)
        && bits(&given.b) == bits(&expected.b)
        && kinds == expected.cones.kinds
        && longs(&dims) == expected.cones.dims
        && bits(&given.q) == bits(&expected.q_object)
}
