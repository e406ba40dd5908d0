//! The library and the reference, asked one row.

use crate::row::{ACCEPTED, Answer, Row};
use comparison::buffers::{Lengths, Output, needed};
use comparison::case::{Case, write};
use comparison::rng::Rng;
use copp3_assembly::raw::{self, Record, Records};
use reference::{Assembled, Refusal, refusals};

const UNUSED: Record = Record {
    kind: u64::MAX,
    weight: f64::NAN,
    start: usize::MAX,
    len: usize::MAX,
    start2: usize::MAX,
    len2: usize::MAX,
};

/// Lengths where nothing is needed, since the problem is refused.
const SOME: Lengths = [24; 8];

/// Every slot, those past the count too; a field that the kind doesn't use holds the largest number.
pub fn records(case: &Case) -> Records {
    let mut records = Records {
        items: [UNUSED; 16],
    };
    for (record, objective) in records.items.iter_mut().zip(&case.sample.objectives) {
        write(record, objective);
    }
    for (record, kind) in records.items.iter_mut().zip(case.kinds) {
        record.kind = kind.unwrap_or(record.kind);
    }
    records
}

fn lengths(row: &Row, needed: Lengths) -> Lengths {
    let mut lengths = needed;
    row.short.iter().for_each(|&buffer| lengths[buffer] -= 1);
    lengths
}

fn expect(call: &str, answer: Answer, expected: Answer) -> Result<(), String> {
    if answer == expected {
        return Ok(());
    }
    Err(format!("{call} answers {answer:?}, expected {expected:?}"))
}

/// What the library needs by its own sizing, with document 02's eight places for each owner.
fn needed_by_sizing(sized: &raw::Answer, count: usize) -> Lengths {
    if sized.number != 0 {
        return SOME;
    }
    let [entries, rows, cones, columns] =
        [sized.entries, sized.rows, sized.cones, sized.columns].map(|count| count as usize);
    let index = 8 * (count + 2);
    [
        entries, entries, entries, rows, cones, cones, columns, index,
    ]
}

/// Sizing and assembly of the library; after a refusal no byte of any buffer has changed.
pub fn library(row: &Row) -> Result<(), String> {
    let case = row.case();
    let (job, records, tables) = (case.job(), records(&case), case.tables());
    let sized = raw::size(job, records, &tables);
    expect("sizing", (sized.number, sized.place), row.sizing())?;
    let lengths = lengths(row, needed_by_sizing(&sized, job.count));
    let mut output = Output::random(&mut Rng::new(row.answer.0), &lengths);
    let before = output.clone();
    let answer = raw::assemble(job, records, &tables, &mut output.buffers());
    expect("the assembly", (answer.number, answer.place), row.answer)?;
    if row.answer == ACCEPTED {
        return accepted(answer, sized);
    }
    output.same(&before)
}

fn accepted(answer: raw::Answer, sized: raw::Answer) -> Result<(), String> {
    if answer == sized {
        return Ok(());
    }
    Err(format!("sizing answers {sized:?}, the assembly {answer:?}"))
}

fn told<T>(answer: &Result<T, Refusal>) -> Answer {
    match answer {
        Ok(_) => ACCEPTED,
        Err(refusal) => (refusal.number, refusal.place),
    }
}

/// The reference's second reading of the documents.
pub fn reference(row: &Row) -> Result<(), String> {
    let case = row.case();
    let judged = case.judge();
    expect("sizing", told(&judged), row.sizing())?;
    let lengths = lengths(row, judged.as_ref().map_or(SOME, needed));
    let answer = judged.and_then(|out| buffers_and_numbers(&case, &out, &lengths));
    expect("the assembly", told(&answer), row.answer)
}

fn buffers_and_numbers(case: &Case, out: &Assembled, lengths: &Lengths) -> Result<(), Refusal> {
    let [seven @ .., index] = lengths;
    refusals::short_buffer(out.counts(), seven)?;
    refusals::short_index(case.sample.count, *index)?;
    refusals::not_finite(out)
}
