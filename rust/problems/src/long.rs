//! Random problems on long paths, from the 4,097 stations that once were the most.

use crate::generate::{spoil_unread, stationary, unspoiled};
use crate::rng::{Flavour, Rng, number};
use reference::sample::Sample;

/// The most stations that once were accepted, one more, and the same of today.
pub const EDGES: [usize; 4] = [4_097, 4_098, 65_537, 65_538];

/// The most acceleration or jerk rows of a station.
const MOST_ROWS: u32 = 256;

/// A random problem with so many stations, which writes about `entries` entries at most.
pub fn sample(rng: &mut Rng, stations: usize, entries: usize) -> Sample {
    let n = stations - 1;
    let ends = ends(rng, n);
    let most = rng.pick(&[2, 4, 4, 16]);
    let count = rng.between(1, most);
    // Ten entries for each torque and moving interval are the most that an objective adds.
    let moving = n - ends.0 - ends.1;
    let room = (entries / (10 * count * moving)).clamp(1, 32);
    let any = rng.between(1, 32);
    let d = rng.pick(&[1, 3, 6, 32, any]).min(room);
    let flavour = match rng.below(100) {
        0..90 => Flavour::Tame,
        90..97 => Flavour::Mixed,
        _ => Flavour::Wild,
    };
    let mut sample = unspoiled(rng, n, ends, d, count, flavour);
    if rng.chance(60) {
        full_rows(rng, &mut sample, flavour, entries / 2);
    }
    if rng.chance(70) {
        spoil_unread(rng, &mut sample);
    }
    sample
}

/// Stationary counts: none, a few, any, or so many that up to three moving intervals are left.
fn ends(rng: &mut Rng, n: usize) -> (usize, usize) {
    match rng.below(8) {
        0 | 1 => (0, 0),
        2..5 => stationary(rng, n),
        5 | 6 => {
            let n0 = rng.below(n);
            let n1 = rng.below(n - n0);
            if rng.chance(50) { (n0, n1) } else { (n1, n0) }
        }
        _ => {
            let all = n - rng.between(1, 3);
            let some = rng.between(0, all);
            let n0 = rng.pick(&[0, some, all]);
            (n0, all - n0)
        }
    }
}

/// Gives many stations the most acceleration rows, jerk rows or both: stations anywhere, or
/// stations that follow each other.
fn full_rows(rng: &mut Rng, sample: &mut Sample, flavour: Flavour, entries: usize) {
    let stations = sample.grid.len();
    let both = rng.chance(50);
    let only = rng.below(2);
    // Two entries for an acceleration row; three for a jerk row, backward and forward.
    let each = if both { 8 } else { [2, 6][only] };
    let most = (entries / (each * MOST_ROWS as usize)).min(stations);
    let many = rng.between(most / 4, most);
    let in_a_row = rng.chance(40);
    let first = rng.below(stations + 1 - many);
    for i in 0..many {
        let k = if in_a_row {
            first + i
        } else {
            rng.below(stations)
        };
        for table in (0..2).filter(|&table| both || table == only) {
            sample.rows[table][k] = MOST_ROWS;
        }
    }
    for (table, blocks) in [(0, 3..=5), (1, 6..=9)] {
        let len = sample.rows[table].iter().map(|&rows| rows as usize).sum();
        for block in blocks {
            let more = sample.table_mut(block);
            more.resize_with(len, || number(rng, flavour));
        }
    }
}

/// Stations with the most acceleration rows, and with the most jerk rows.
pub fn full_stations(sample: &Sample) -> [usize; 2] {
    let full = |table: usize| {
        let counts = sample.rows[table].iter();
        counts.filter(|&&rows| rows == MOST_ROWS).count()
    };
    [full(0), full(1)]
}
