//! The fixed list: ledger, shapes, floats, buffers, refusals, worked problems, and cases that are
//! wrong on purpose.

use crate::case::Case;
use crate::wrong;
use problems::generate::shaped;
use problems::rng::{Flavour, Rng};
use reference::sample::{Sample, ledger};
use reference::{Objective, Part};
use worked::answer;

pub fn cases() -> Vec<Case> {
    let ledger: Vec<Case> = ledger()
        .into_iter()
        .map(|(sample, _)| Case::new(b'L', sample))
        .collect();
    let buffers = buffers();
    // The ledger's cases H and L, and one place too few for the cost.
    let wrong = wrong::cases(&ledger[7], &ledger[11], &buffers[6]);
    let groups = [
        ledger,
        shapes(),
        floats(),
        buffers,
        refusals(),
        worked_problems(),
        wrong,
    ];
    groups.into_iter().flatten().collect()
}

/// The worked problems, once the published files are found to answer as the reference does.
fn worked_problems() -> Vec<Case> {
    let problems = worked::worked();
    problems.iter().for_each(|problem| drop(answer(problem)));
    problems
        .into_iter()
        .map(|problem| Case::new(b'P', problem.sample))
        .collect()
}

/// Small random problems over the stationary counts; unread places hold anything.
fn shapes() -> Vec<Case> {
    let mut rng = Rng::new(2);
    let ends = [
        (2, (0, 1)),
        (3, (0, 2)),
        (4, (2, 1)),
        (5, (3, 1)),
        (4, (0, 3)),
        (6, (2, 3)),
    ];
    let mut cases = vec![];
    for (i, (n, ends)) in ends.into_iter().enumerate() {
        let (d, count) = (1 + i % 2, 1 + i % 3);
        cases.push(Case::new(b'S', few_rows(&mut rng, n, ends, d, count)));
    }
    cases
}

/// A random problem that doesn't fill the list with acceleration and jerk rows.
fn few_rows(rng: &mut Rng, n: usize, ends: (usize, usize), d: usize, count: usize) -> Sample {
    loop {
        let sample = shaped(rng, n, ends, d, count, Flavour::Tame);
        if sample.rows.iter().flatten().sum::<u32>() <= 6 {
            return sample;
        }
    }
}

fn all_four() -> Sample {
    let mut sample = Sample::plain(4, (2, 1), 2)
        .with_linear(0.5, &[1.0, 2.0, 3.0, 4.0, 5.0], &[0.5, 0.25, 2.0, 1.0, 3.0])
        .with_thermal(2.0, &[1.0, 0.1])
        .with_variation(3.0, &[0.2, 1.0])
        .with_time(0.3);
    for (k, s) in sample.grid.iter_mut().enumerate() {
        *s = 0.1 * (k * k) as f64 + 0.3 * k as f64;
    }
    let spread = |len: usize| (0..len).map(|i| 0.7 * i as f64 - 1.1).collect();
    for table in [10, 11, 12, 13] {
        let len = sample.table(table).len();
        *sample.table_mut(table) = spread(len);
    }
    *sample.table_mut(14) = vec![0.8];
    sample
}

/// Minus zero, subnormals, large numbers, overflow and the reciprocal of a small spacing.
fn floats() -> Vec<Case> {
    let mut signed = Sample::plain(3, (1, 0), 1).with_thermal(-0.0, &[-0.0]);
    signed.boundary.a = (-0.0, 0.0);
    let mut close = Sample::plain(2, (0, 0), 1).with_time(1.0);
    close.grid = vec![0.0, f64::from_bits(1), f64::from_bits(3)];
    let mut jerk = close.clone();
    jerk.rows[1] = vec![0, 1, 0];
    for table in 6..=9 {
        *jerk.table_mut(table) = vec![1.0];
    }
    let mut large = Sample::plain(2, (0, 0), 1).with_linear(1e200, &[1e100; 3], &[-1e107; 3]);
    large.grid = vec![-1e300, 1.0, 1e300];
    let samples = [all_four(), signed, close, jerk, large, overflowing()];
    samples.into_iter().map(|s| Case::new(b'F', s)).collect()
}

/// Each buffer one place short, all longer, index and cost short, an index short where a
/// number is not finite, and the longest index.
fn buffers() -> Vec<Case> {
    let plain = || Sample::plain(2, (0, 0), 1).with_time(1.0);
    let short = |sample: Sample, short: &[usize]| Case {
        short: short.to_vec(),
        ..Case::new(b'B', sample)
    };
    let mut cases: Vec<Case> = (0..8).map(|buffer| short(plain(), &[buffer])).collect();
    cases.push(Case {
        longer: 3,
        ..Case::new(b'B', plain())
    });
    cases.push(short(plain(), &[6, 7]));
    cases.push(short(overflowing(), &[7]));
    cases.push(Case::new(b'B', sixteen()));
    cases
}

/// As many objectives as there may be, hence the longest index; only the last has rows.
fn sixteen() -> Sample {
    let first = Sample::plain(2, (0, 0), 1).with_linear(1.0, &[1.0; 3], &[0.5; 3]);
    let again = first.objectives[0];
    (1..15)
        .fold(first, |sample, _| sample.with(again))
        .with_time(1.0)
}

/// A cost that is not finite.
fn overflowing() -> Sample {
    Sample::plain(2, (0, 0), 1).with_linear(1e200, &[1e109; 3], &[0.0; 3])
}

/// An accepted problem with a stationary start and two objectives, with a change.
fn changed(change: impl Fn(&mut Sample)) -> Case {
    let mut sample = Sample::plain(3, (1, 0), 1)
        .with_thermal(1.0, &[1.0])
        .with_time(1.0);
    change(&mut sample);
    Case::new(b'R', sample)
}

fn refusals() -> Vec<Case> {
    let part = |start: usize, len: usize| Part { start, len };
    let mut unknown = changed(|s| s.boundary.a.0 = f64::NAN);
    unknown.unknown = Some((1, 4));
    vec![
        changed(|s| s.boundary.b.0 = f64::INFINITY),
        changed(|s| s.boundary.a.1 = -f64::from_bits(1)),
        changed(|s| s.boundary.b.1 = 1.0),
        changed(|s| s.grid.truncate(2)),
        changed(|s| s.grid[3] = f64::NAN),
        changed(|s| (s.grid[0], s.grid[1]) = (0.0, -0.0)),
        changed(|s| s.d = 0),
        changed(|s| s.d = 33),
        changed(|s| s.count = 0),
        changed(|s| s.count = usize::MAX),
        changed(|s| s.objectives[1] = Objective::Time(-1.0)),
        changed(|s| s.objectives[0] = Objective::ThermalEnergy(1.0, part(1, 1))),
        changed(|s| s.objectives[1] = Objective::TotalVariationTorque(1.0, part(usize::MAX, 1))),
        changed(|s| s.objectives[1] = Objective::Linear(1.0, part(0, 1), part(0, 4))),
        changed(|s| s.pool[0] = -1.0),
        changed(|s| s.num_stationary = (usize::MAX, 2)),
        changed(|s| s.rows[1].push(0)),
        changed(|s| s.rows[0][2] = 257),
        changed(|s| s.rows[0][0] = 1),
        changed(|s| s.table_mut(13).push(0.0)),
        changed(|s| s.start.minimum = f64::INFINITY),
        changed(|s| s.table_mut(2)[2] = f64::NEG_INFINITY),
        changed(|s| s.table_mut(2)[1] = f64::NAN),
        changed(|s| s.start.maximum = -1.0),
        changed(|s| s.table_mut(13)[0] = f64::NAN),
        changed(|s| s.table_mut(11)[0] = f64::NAN),
        unknown,
    ]
}
