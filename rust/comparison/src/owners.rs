//! Whose a row or a column is: both functions against the reference, by indexes that the
//! assembly has written and by any others.

use crate::rng::Rng;
use crate::tally::{Source, Tally};
use copp3_assembly::raw::{self, OwnerAnswer};
use copp3_assembly::{Assembly, Owner};
use reference::owners::{Asked, owner_of};
use reference::{Assembled, Refusal};

type Check = Result<(), String>;

/// Indexes that nothing wrote, for each problem, and what is asked of each.
const INDEXES: usize = 3;
const QUESTIONS: usize = 4;

/// Numbers at which whole numbers of 32 or 64 bits wrap.
const EXTREMES: [u64; 8] = [
    u64::MAX,
    u64::MAX - 1,
    1 << 63,
    (1 << 63) - 1,
    (1 << 63) + 1,
    1 << 32,
    (1 << 32) - 1,
    (1 << 32) + 1,
];

/// Numbers of objectives: eight times two more wraps to 0, 8, 16 and the like.
const MANY: [usize; 11] = [
    (1 << 61) - 2,
    (1 << 61) - 2,
    (1 << 61) - 1,
    1 << 61,
    1 << 61,
    1 << 62,
    1 << 63,
    (1 << 63) + 1,
    usize::MAX - 2,
    usize::MAX - 1,
    usize::MAX,
];

/// An index with a number of objectives that may not be its own.
struct Index {
    numbers: Vec<u64>,
    objectives: usize,
    source: Source,
}

impl Index {
    /// Asks the library and the reference for one owner.
    fn ask(&self, asked: Asked, number: usize, tally: &mut Tally) -> Check {
        let (index, objectives) = (&self.numbers, self.objectives);
        let answer = match asked {
            Asked::Row => raw::owner_of_row(index, objectives, number),
            Asked::Column => raw::owner_of_column(index, objectives, number),
        };
        let (refusal, place, owner) = match owner_of(asked, index, objectives, number) {
            Ok(owner) => (0, 0, owner),
            Err(refusal) => (refusal.number, refusal.place, 0),
        };
        let expected = OwnerAnswer {
            number: refusal,
            place,
            owner,
        };
        if answer != expected {
            return Err(format!(
                "{asked:?} {number} by {index:?} with {objectives} objectives: \
                 {answer:?}, expected {expected:?}"
            ));
        }
        tally.count_owner(self.source, asked, refusal);
        Ok(())
    }

    fn ask_all(&self, asked: Asked, numbers: &[usize], tally: &mut Tally) -> Check {
        numbers
            .iter()
            .try_for_each(|&number| self.ask(asked, number, tally))
    }
}

/// First and last of each owner's range, with the numbers beside them.
fn borders(asked: Asked, index: &[u64], objectives: usize) -> Vec<usize> {
    let owners = index.chunks_exact(8).take(objectives + 2);
    owners
        .map(|owner| asked.range(owner))
        .flat_map(|range| [range.start, range.end])
        .flat_map(|border| [(border as usize).wrapping_sub(1), border as usize])
        .collect()
}

/// What is asked of a written index: borders, some in between, and what lies outside.
fn worth_asking(rng: &mut Rng, asked: Asked, index: &Index, count: usize) -> Vec<usize> {
    let mut numbers = borders(asked, &index.numbers, index.objectives);
    numbers.extend([0, count, count + 1, usize::MAX]);
    numbers.extend([(); 4].map(|()| rng.below(count)));
    numbers
}

/// Asks an index that the assembly has written for owners, as it was lent.
pub fn of_written(
    index: &[u64],
    objectives: usize,
    assembled: &Assembled,
    rng: &mut Rng,
    tally: &mut Tally,
) -> Check {
    let index = Index {
        numbers: index.to_vec(),
        objectives,
        source: Source::Written,
    };
    let counts = assembled.counts();
    let rows = worth_asking(rng, Asked::Row, &index, counts.rows);
    index.ask_all(Asked::Row, &rows, tally)?;
    let columns = worth_asking(rng, Asked::Column, &index, counts.columns);
    index.ask_all(Asked::Column, &columns, tally)
}

/// Asks indexes that nothing wrote, or written ones with damage, for owners.
pub fn of_any_index(assembled: Option<&Assembled>, rng: &mut Rng, tally: &mut Tally) -> Check {
    for _ in 0..INDEXES {
        let index = match assembled {
            Some(assembled) if rng.chance(50) => damaged(rng, &assembled.index),
            _ => any_index(rng),
        };
        let rows = [(); QUESTIONS].map(|()| any_question(rng, &index));
        index.ask_all(Asked::Row, &rows, tally)?;
        let columns = [(); QUESTIONS].map(|()| any_question(rng, &index));
        index.ask_all(Asked::Column, &columns, tally)?;
    }
    Ok(())
}

/// A written index with some numbers, its length or the number of objectives changed.
fn damaged(rng: &mut Rng, written: &[u64]) -> Index {
    let mut numbers = written.to_vec();
    let mut objectives = written.len() / 8 - 2;
    for _ in 0..rng.below(4) {
        let at = rng.below(numbers.len());
        numbers[at] = any_number(rng);
    }
    match rng.below(8) {
        0 => numbers.truncate(written.len() - 1),
        1 => numbers.truncate(rng.below(written.len())),
        2 => objectives += 1,
        3 => objectives = objectives.saturating_sub(1),
        4 => objectives = rng.pick(&MANY),
        _ => {}
    }
    Index {
        numbers,
        objectives,
        source: Source::Any,
    }
}

fn any_index(rng: &mut Rng) -> Index {
    let objectives = match rng.below(10) {
        0 | 1 => 0,
        2..8 => rng.below(6),
        _ => rng.pick(&MANY),
    };
    let needed = objectives.wrapping_add(2).wrapping_mul(8);
    let len = match rng.below(10) {
        0..5 if needed <= 64 => needed + rng.below(4),
        5 | 6 if (1..=64).contains(&needed) => needed - 1,
        _ => rng.below(60),
    };
    // Small numbers alone make ranges that overlap and leave gaps.
    let small = rng.chance(60);
    let numbers = (0..len)
        .map(|_| {
            if small {
                rng.below(12) as u64
            } else {
                any_number(rng)
            }
        })
        .collect();
    Index {
        numbers,
        objectives,
        source: Source::Any,
    }
}

/// A small number, one where whole numbers wrap, or any.
fn any_number(rng: &mut Rng) -> u64 {
    match rng.below(10) {
        0..5 => rng.below(16) as u64,
        5..9 => rng.pick(&EXTREMES).wrapping_sub(rng.below(3) as u64),
        _ => rng.bits(),
    }
}

/// A row or column: any number, or one at the border of a range.
fn any_question(rng: &mut Rng, index: &Index) -> usize {
    if index.numbers.len() < 8 || rng.chance(50) {
        return any_number(rng) as usize;
    }
    let owner = 8 * rng.below(index.numbers.len() / 8);
    let first = index.numbers[owner + rng.pick(&[1, 3])];
    let length = index.numbers[owner + rng.pick(&[5, 7])];
    let border = rng.pick(&[first, first.wrapping_add(length)]);
    border.wrapping_sub(rng.below(2) as u64) as usize
}

fn same_owner(
    asked: Asked,
    number: usize,
    found: Result<Owner, copp3_assembly::Refusal>,
    expected: Result<u64, Refusal>,
) -> Check {
    let expected = expected.map(|owner| match owner {
        0 => Owner::StandardRows,
        1 => Owner::RootStage,
        _ => Owner::Objective(owner as usize - 2),
    });
    let numbers = found.map_err(|refusal| (refusal.number(), refusal.place()));
    if numbers != expected.map_err(|refusal| (refusal.number, refusal.place)) {
        return Err(format!(
            "the wrapper answers {found:?} for {asked:?} {number}, expected {expected:?}"
        ));
    }
    Ok(())
}

/// What the wrapper's method and its function answer.
fn of_wrapper(
    found: &Assembly,
    objectives: usize,
    asked: Asked,
    number: usize,
) -> [Result<Owner, copp3_assembly::Refusal>; 2] {
    let index = &found.index;
    match asked {
        Asked::Row => [
            found.owner_of_row(number),
            copp3_assembly::owner_of_row(index, objectives, number),
        ],
        Asked::Column => [
            found.owner_of_column(number),
            copp3_assembly::owner_of_column(index, objectives, number),
        ],
    }
}

/// The wrapper's answers at the borders of the owners' ranges and outside.
pub fn by_wrapper(found: &Assembly, objectives: usize, asked: Asked) -> Check {
    let outside = [0, found.right.len() + 1, found.cost.len() + 1, usize::MAX];
    let borders = borders(asked, &found.index, objectives);
    for number in borders.into_iter().chain(outside) {
        let expected = owner_of(asked, &found.index, objectives, number);
        for answer in of_wrapper(found, objectives, asked, number) {
            same_owner(asked, number, answer, expected)?;
        }
    }
    Ok(())
}
