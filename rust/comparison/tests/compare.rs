//! The library against the reference: document 01's ledger, all small shapes, the
//! limits, 200,000 random and damaged problems, and 20,000 aimed at refusal 20.

use comparison::buffers::needed;
use comparison::case::Case;
use comparison::generate::shaped;
use comparison::large::Large;
use comparison::one_number::Group;
use comparison::rng::{Flavour, Rng};
use comparison::tally::Tally;
use comparison::{check, every_length, ordinary, run};
use copp3_assembly::{Assembly, Owner, Refusal, assemble, assemble_into, index_places, raw};
use reference::Assembled;
use reference::sample::{Sample, ledger};

/// Sizing, the lengths around the needed ones, and the wrapper, of one problem.
fn thoroughly(case: &Case, rng: &mut Rng, tally: &mut Tally) {
    check(case, rng, tally).unwrap();
    let judged = case.judge();
    let records = case.records(rng);
    if let Ok(assembled) = &judged {
        let exact = needed(assembled);
        every_length(case, &judged, &records, exact, rng, tally).unwrap();
    }
    ordinary(case, &judged).unwrap();
}

#[test]
fn random_problems() {
    let mut tally = Tally::default();
    run(20260101, 0, 200_000, &mut tally).unwrap();
    println!("{tally}");
    tally.covers(50).unwrap();
}

/// Refusal 20 at single numbers, and what no row or cost takes.
#[test]
fn single_numbers() {
    for mut group in [Group::written(), Group::unread()] {
        group.run(20260102, 0, 10_000).unwrap();
        println!("{}", group.report());
        group.covers(50).unwrap();
    }
}

#[test]
fn ledger_lines() {
    let mut rng = Rng::new(1);
    let mut tally = Tally::default();
    for (sample, line) in ledger() {
        let case = Case::new(sample);
        thoroughly(&case, &mut rng, &mut tally);
        let a = raw::size(case.job(), case.records(&mut rng), &case.tables());
        let answer = match a.number {
            0 => format!("{} {} {} {}", a.entries, a.rows, a.cones, a.columns),
            number => format!("refused {number} {}", a.place),
        };
        assert_eq!(answer, line[2..]);
    }
}

#[test]
fn all_small_shapes() {
    let mut rng = Rng::new(2);
    let mut tally = Tally::default();
    for n in 2..=6 {
        for n0 in 0..=n + 1 {
            for n1 in 0..=n + 1 {
                for kinds in 1..16 {
                    let case = small_shape(&mut rng, n, (n0, n1), kinds);
                    thoroughly(&case, &mut rng, &mut tally);
                }
            }
        }
    }
    println!("{tally}");
}

/// A tame problem with the objectives whose bits are set in `kinds`.
fn small_shape(rng: &mut Rng, n: usize, ends: (usize, usize), kinds: usize) -> Case {
    // Refused shapes are made from a plain one; the tables then are of no matter.
    let open = if ends.0 + ends.1 < n { ends } else { (0, 0) };
    let d = rng.between(1, 3);
    let mut sample = shaped(rng, n, open, d, 0, Flavour::Tame);
    sample.num_stationary = ends;
    let mut numbers = |len: usize| -> Vec<f64> { (0..len).map(|_| rng.unit()).collect() };
    let (scales, alpha, beta) = (numbers(d), numbers(n + 1), numbers(n + 1));
    *sample.table_mut(10) = numbers(n + 1);
    for table in 11..=13 {
        *sample.table_mut(table) = numbers(d * (n + 1));
    }
    *sample.table_mut(14) = numbers(open.0.max(1) - 1);
    *sample.table_mut(15) = numbers(open.1.max(1) - 1);
    if kinds & 1 != 0 {
        sample = sample.with_linear(0.5, &alpha, &beta);
    }
    if kinds & 2 != 0 {
        sample = sample.with_variation(0.25, &scales);
    }
    if kinds & 4 != 0 {
        sample = sample.with_thermal(2.0, &scales);
    }
    if kinds & 8 != 0 {
        sample = sample.with_time(1.5);
    }
    Case::new(sample)
}

fn refusal_of(sample: Sample, rng: &mut Rng) -> u64 {
    let mut tally = Tally::default();
    let case = Case::new(sample);
    check(&case, rng, &mut tally).unwrap();
    ordinary(&case, &case.judge()).unwrap();
    match case.judge().as_ref().map(Assembled::counts) {
        Ok(_) => 0,
        Err(refusal) => refusal.number,
    }
}

#[test]
fn limits() {
    let mut rng = Rng::new(3);
    let time = |n: usize, d: usize| Sample::plain(n, (0, 0), d).with_time(1.0);
    assert_eq!(refusal_of(time(1, 1), &mut rng), 4);
    assert_eq!(refusal_of(time(2, 1), &mut rng), 0);
    assert_eq!(refusal_of(time(4096, 1), &mut rng), 0);
    assert_eq!(refusal_of(time(4097, 1), &mut rng), 0);
    assert_eq!(refusal_of(time(65_536, 1), &mut rng), 0);
    assert_eq!(refusal_of(time(65_537, 1), &mut rng), 5);
    assert_eq!(refusal_of(time(2, 0), &mut rng), 8);
    assert_eq!(refusal_of(time(2, 32), &mut rng), 0);
    assert_eq!(refusal_of(time(2, 33), &mut rng), 8);
    let many = |count: usize| (1..count).fold(time(2, 1), |sample, _| sample.with_time(2.0));
    assert_eq!(refusal_of(many(16), &mut rng), 0);
    assert_eq!(refusal_of(many(17), &mut rng), 10);
}

#[test]
fn row_limits() {
    let mut rng = Rng::new(4);
    for (table, blocks) in [(0, 3..=5), (1, 6..=9)] {
        for (rows, refusal) in [(256, 0), (257, 16)] {
            let mut sample = Sample::plain(3, (0, 0), 1).with_time(1.0);
            sample.rows[table][1] = rows;
            for block in blocks.clone() {
                *sample.table_mut(block) = vec![1.0; rows as usize];
            }
            assert_eq!(refusal_of(sample, &mut rng), refusal);
        }
    }
}

#[test]
fn longest_grids() {
    let mut rng = Rng::new(5);
    let mut tally = Tally::default();
    let once = [(0, 0), (1, 1), (3, 2), (4095, 0), (0, 4095), (2047, 2048)];
    // With few moving intervals, hence little to write; `large_problems` has the others.
    let now = [(65_535, 0), (0, 65_533), (32_767, 32_768)];
    let once = once.map(|ends| (4096, ends));
    for (n, ends) in once.into_iter().chain(now.map(|ends| (65_536, ends))) {
        let sample = shaped(&mut rng, n, ends, 2, 3, Flavour::Tame);
        thoroughly(&Case::new(sample), &mut rng, &mut tally);
    }
}

/// Random problems on long paths, the edges of the old limit and of today's among them.
#[test]
fn large_problems() {
    let mut met = Large::default();
    met.run(20260103, 0, 10, 3_000_000).unwrap();
    println!("{met}");
    met.covers(1).unwrap();
}

/// The wrapper's index: owners of case A, one place fewer, and two more than needed.
#[test]
fn index_of_the_wrapper() {
    let case = Case::new(ledger().remove(0).0);
    let objectives = case.ordinary().unwrap();
    let problem = case.problem(&objectives);
    let mut out = assemble(&problem).unwrap();
    assert_eq!(out.index.len(), index_places(1));
    assert_eq!(out.owner_of_row(10), Ok(Owner::StandardRows));
    assert_eq!(out.owner_of_row(11), Ok(Owner::RootStage));
    assert_eq!(out.owner_of_row(15), Ok(Owner::Objective(0)));
    assert_eq!(out.owner_of_row(19), Err(Refusal::NoOwner));
    assert_eq!(out.owner_of_column(5), Err(Refusal::NoOwner));
    assert_eq!(out.owner_of_column(7), Ok(Owner::Objective(0)));
    let index = out.index.clone();
    out.index.pop();
    let short = assemble_into(&problem, &mut out.buffers());
    assert_eq!(short, Err(Refusal::ShortIndex));
    out.index = vec![7; 26];
    assemble_into(&problem, &mut out.buffers()).unwrap();
    assert_eq!(out.index, [&index[..], &[7, 7]].concat());
    assert_eq!(
        Assembly::default().owner_of_row(0),
        Err(Refusal::ShortIndex)
    );
    assert_eq!(Owner::Objective(3).to_string(), "objective 3");
}

#[test]
fn refusals_have_words() {
    for number in 0..64 {
        for place in [0, 1, 2, 7, 16, u64::MAX] {
            let refusal = Refusal::new(number, place);
            assert!(!refusal.to_string().is_empty());
            assert_eq!(refusal.number(), number);
        }
    }
    let words = Refusal::new(15, 12).to_string();
    assert_eq!(words, "table 12 (torque b) has a wrong length");
    assert_eq!(Refusal::new(28, 0), Refusal::ShortIndex);
    assert_eq!(Refusal::new(29, 0), Refusal::NoOwner);
    assert_eq!(Refusal::new(3, 1).place(), 1);
    assert_eq!(Refusal::new(39, 5).place(), 5);
}
