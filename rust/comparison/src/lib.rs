//! The library against the reference: answers, numbers and every byte of the buffers.

pub mod buffers;
pub mod case;
pub mod damage;
pub mod large;
pub mod one_number;
pub mod owners;
pub mod tally;

pub use problems::{generate, long, rng};

use buffers::{Lengths, Output, needed};
use case::Case;
use copp3_assembly::raw::{self, Answer, Records};
use reference::counts::check_facts;
use reference::owners::Asked;
use reference::{Assembled, Counts, Refusal, refusals};
use rng::Rng;
use tally::Tally;

type Check = Result<(), String>;

/// Buffer lengths stay below this where nothing says what is needed.
const SMALL: usize = 24;
const LARGE: usize = 2000;

/// The problem number `index` of a run: in order, or damaged once or several times.
pub fn problem(rng: &mut Rng) -> Case {
    let mut case = Case::new(generate::sample(rng));
    if rng.chance(45) {
        return case;
    }
    damage::several(rng, &mut case);
    case
}

/// Runs `count` problems from `first` on; an error says how to run the failing one alone.
pub fn run(seed: u64, first: u64, count: u64, tally: &mut Tally) -> Check {
    for index in first..first + count {
        let mut rng = Rng::of_problem(seed, index);
        let case = problem(&mut rng);
        check(&case, &mut rng, tally)
            .map_err(|fault| format!("problem {index} of seed {seed}: {fault}"))?;
    }
    Ok(())
}

/// Compares sizing, one or several assemblies of a problem, and the owners of damaged indexes.
pub fn check(case: &Case, rng: &mut Rng, tally: &mut Tally) -> Check {
    let judged = case.judge();
    let records = case.records(rng);
    tally.problems += 1;
    sizing(case, &judged, &records)?;
    let lengths = choose_lengths(rng, &judged);
    assembly(case, &judged, &records, &lengths, rng, tally)?;
    if let Ok(assembled) = &judged
        && rng.chance(12)
    {
        every_length(case, &judged, &records, needed(assembled), rng, tally)?;
    }
    if rng.chance(12) {
        ordinary(case, &judged)?;
    }
    owners::of_any_index(judged.as_ref().ok(), rng, tally)
}

/// Sizing's answer, and demand 3's facts about what is assembled.
fn sizing(case: &Case, judged: &Result<Assembled, Refusal>, records: &Records) -> Check {
    let sized = raw::size(case.job(), *records, &case.tables());
    let expected = judged.as_ref().map(Assembled::counts).map_err(|r| *r);
    equal("sizing", sized, expected)?;
    if let Ok(assembled) = judged {
        check_facts(&case.sample.problem(), assembled)?;
    }
    Ok(())
}

/// One assembly with buffers of these lengths: answer, numbers, and all bytes.
pub fn assembly(
    case: &Case,
    judged: &Result<Assembled, Refusal>,
    records: &Records,
    lengths: &Lengths,
    rng: &mut Rng,
    tally: &mut Tally,
) -> Check {
    let expected = judge_buffers(case, judged, lengths);
    let mut output = Output::random(rng, lengths);
    let mut after = output.clone();
    let answer = raw::assemble(case.job(), *records, &case.tables(), &mut output.buffers());
    equal("assembly", answer, expected.map(Assembled::counts))?;
    if let Ok(assembled) = expected {
        after.accept(assembled);
    }
    output.same(&after)?;
    tally.count(expected.err().map_or(0, |refusal| refusal.number));
    if let Ok(assembled) = judged {
        tally.count_faults(faults(case, assembled, lengths).map(|fault| fault.is_err()));
    }
    match expected {
        Ok(assembled) => {
            owners::of_written(output.index(), case.sample.count, assembled, rng, tally)
        }
        Err(_) => Ok(()),
    }
}

/// Refusals 19, 28 and 20 over what was judged before.
fn judge_buffers<'a>(
    case: &Case,
    judged: &'a Result<Assembled, Refusal>,
    lengths: &Lengths,
) -> Result<&'a Assembled, Refusal> {
    let assembled = judged.as_ref().map_err(|refusal| *refusal)?;
    let first = faults(case, assembled, lengths)
        .into_iter()
        .find_map(Result::err);
    first.map_or(Ok(assembled), Err)
}

/// Refusals 19, 28 and 20, each for itself, in the order in which they are tested.
fn faults(case: &Case, assembled: &Assembled, lengths: &Lengths) -> [Result<(), Refusal>; 3] {
    let [seven @ .., index] = lengths;
    [
        refusals::short_buffer(assembled.counts(), seven),
        refusals::short_index(case.sample.count, *index),
        refusals::not_finite(assembled),
    ]
}

/// Just the right lengths, one short in each and in all, and one longer in each.
pub fn every_length(
    case: &Case,
    judged: &Result<Assembled, Refusal>,
    records: &Records,
    exact: Lengths,
    rng: &mut Rng,
    tally: &mut Tally,
) -> Check {
    assembly(case, judged, records, &exact, rng, tally)?;
    for buffer in 0..exact.len() {
        let mut lengths = exact;
        lengths[buffer] += 1;
        assembly(case, judged, records, &lengths, rng, tally)?;
        lengths[buffer] -= 2;
        assembly(case, judged, records, &lengths, rng, tally)?;
    }
    assembly(case, judged, records, &exact.map(|len| len - 1), rng, tally)?;
    assembly(case, judged, records, &[0; 8], rng, tally)
}

/// Lengths of all sorts around what is needed, or small ones where nothing is.
fn choose_lengths(rng: &mut Rng, judged: &Result<Assembled, Refusal>) -> Lengths {
    let Ok(assembled) = judged else {
        let limit = if rng.chance(5) { LARGE } else { SMALL };
        return [(); 8].map(|()| rng.below(limit));
    };
    let mut lengths = needed(assembled);
    match rng.below(10) {
        0..4 => {}
        4..7 => lengths = lengths.map(|len| len + rng.below(9)),
        7 => lengths[rng.below(8)] -= 1,
        8 => lengths = lengths.map(|len| (len + rng.below(3)).saturating_sub(rng.below(3))),
        _ => lengths[rng.below(8)] = rng.below(SMALL),
    }
    if rng.chance(15) {
        lengths[7] = choose_index_length(rng, assembled.index.len());
    }
    lengths
}

/// A length of the index whatever the other buffers have: one short, none, or any.
fn choose_index_length(rng: &mut Rng, exact: usize) -> usize {
    match rng.below(4) {
        0 | 1 => exact - 1,
        2 => 0,
        _ => rng.below(2 * exact),
    }
}

fn equal(call: &str, answer: Answer, expected: Result<Counts, Refusal>) -> Check {
    let (number, place, counts) = match expected {
        Ok(counts) => (0, 0, counts),
        Err(refusal) => (refusal.number, refusal.place, Counts::default()),
    };
    let expected = Answer {
        number,
        place,
        entries: counts.entries as u64,
        rows: counts.rows as u64,
        cones: counts.cones as u64,
        columns: counts.columns as u64,
    };
    if answer != expected {
        return Err(format!("{call} answers {answer:?}, expected {expected:?}"));
    }
    Ok(())
}

/// The wrapper's own functions say and write the same.
pub fn ordinary(case: &Case, judged: &Result<Assembled, Refusal>) -> Check {
    let Some(objectives) = case.ordinary() else {
        return Ok(());
    };
    let problem = case.problem(&objectives);
    let exact = judged.as_ref().map_or([0; 8], needed);
    let expected = judge_buffers(case, judged, &exact);
    let sized = copp3_assembly::size(&problem);
    if sized.is_ok() != judged.is_ok() {
        return Err(format!("the wrapper's sizing answers {sized:?}"));
    }
    match (copp3_assembly::assemble(&problem), expected) {
        (Ok(found), Ok(expected)) => {
            same(&found, expected)?;
            owners::by_wrapper(&found, case.sample.count, Asked::Row)?;
            owners::by_wrapper(&found, case.sample.count, Asked::Column)
        }
        (Err(found), Err(expected))
            if (found.number(), found.place()) == (expected.number, expected.place) =>
        {
            Ok(())
        }
        (found, expected) => Err(format!(
            "the wrapper answers {:?}, expected {:?}",
            found.map(|a| a.values.len()),
            expected.map(Assembled::counts)
        )),
    }
}

fn bits(numbers: &[f64]) -> impl Iterator<Item = u64> + '_ {
    numbers.iter().map(|number| number.to_bits())
}

/// Whether vectors hold the same bits as the reference's.
pub fn same(found: &copp3_assembly::Assembly, expected: &Assembled) -> Check {
    let equal = found.rows == expected.row
        && found.columns == expected.col
        && bits(&found.values).eq(bits(&expected.val))
        && bits(&found.right).eq(bits(&expected.b))
        && found.kinds == expected.cones.kinds
        && found.dimensions == expected.cones.dims
        && bits(&found.cost).eq(bits(&expected.q_object))
        && found.index == expected.index;
    if equal {
        Ok(())
    } else {
        Err("the wrapper's vectors differ".into())
    }
}
