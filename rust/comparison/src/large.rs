//! Problems of 4,097 stations and more: the edges of the old limit and of today's, and random
//! ones, some with 256 rows at thousands of stations, some damaged.

use crate::buffers::{Lengths, needed};
use crate::case::Case;
use crate::long::{self, EDGES};
use crate::rng::Rng;
use crate::tally::Tally;
use crate::{Check, assembly, choose_lengths, damage, every_length, ordinary, owners, sizing};
use reference::{Assembled, Counts, Refusal};
use std::fmt;

/// About the most entries of a problem; they take 24 bytes each in a side's buffers.
pub const MOST_ENTRIES: usize = 24_000_000;

/// Of so many problems the first four have the edges' numbers of stations.
const TURN: u64 = 10;

/// Problems with up to so many entries are assembled with all lengths around the needed ones.
const FEW: usize = 100_000;

/// What was met, beside the answers.
#[derive(Default)]
pub struct Large {
    pub tally: Tally,
    damaged: u64,
    /// Problems at each of the edges.
    edges: [u64; 4],
    /// Problems that sizing accepts, and their entries over all assemblies that accept them.
    accepted: u64,
    entries: u64,
    /// The largest of them: stations, stations with 256 acceleration and jerk rows, counts.
    stations: usize,
    full: [usize; 2],
    largest: Counts,
}

impl Large {
    /// Runs `count` problems from `first` on; an error says how to run the failing one alone.
    pub fn run(&mut self, seed: u64, first: u64, count: u64, entries: usize) -> Check {
        for index in first..first + count {
            let mut rng = Rng::of_problem(seed, index);
            let stations = stations(&mut rng, index);
            let case = self.problem(&mut rng, stations, entries);
            self.check(&case, index, &mut rng)
                .map_err(|fault| format!("large problem {index} of seed {seed}: {fault}"))?;
        }
        Ok(())
    }

    fn problem(&mut self, rng: &mut Rng, stations: usize, entries: usize) -> Case {
        if let Some(edge) = EDGES.iter().position(|&edge| edge == stations) {
            self.edges[edge] += 1;
        }
        // The largest problems take seconds.
        let entries = entries / rng.pick(&[1, 2, 4, 16]);
        let mut case = Case::new(long::sample(rng, stations, entries));
        if rng.chance(30) {
            damage::several(rng, &mut case);
            self.damaged += 1;
        }
        case
    }

    /// Sizing, the assembly with buffers of several lengths, at times the wrapper, and the owners
    /// of any indexes.
    fn check(&mut self, case: &Case, index: u64, rng: &mut Rng) -> Check {
        let judged = case.judge();
        let records = case.records(rng);
        self.tally.problems += 1;
        sizing(case, &judged, &records)?;
        let before = self.tally.met(0);
        for lengths in lengths(rng, &judged, index) {
            assembly(case, &judged, &records, &lengths, rng, &mut self.tally)?;
        }
        if let Ok(assembled) = &judged {
            let exact = needed(assembled);
            if exact[0] <= FEW {
                every_length(case, &judged, &records, exact, rng, &mut self.tally)?;
            }
            self.note(case, assembled.counts(), self.tally.met(0) - before);
        }
        if rng.chance(25) {
            ordinary(case, &judged)?;
        }
        owners::of_any_index(judged.as_ref().ok(), rng, &mut self.tally)
    }

    /// Notes a problem that sizing accepts, and how many assemblies have accepted it.
    fn note(&mut self, case: &Case, counts: Counts, assemblies: u64) {
        self.accepted += 1;
        self.entries += assemblies * counts.entries as u64;
        self.stations = self.stations.max(case.sample.grid.len());
        for (full, here) in self.full.iter_mut().zip(long::full_stations(&case.sample)) {
            *full = here.max(*full);
        }
        let largest = &mut self.largest;
        largest.entries = largest.entries.max(counts.entries);
        largest.rows = largest.rows.max(counts.rows);
        largest.cones = largest.cones.max(counts.cones);
        largest.columns = largest.columns.max(counts.columns);
    }

    /// An error names an edge that was met fewer than `least` times, or says so of acceptance.
    pub fn covers(&self, least: u64) -> Check {
        let met = EDGES.iter().zip(self.edges);
        if let Some((edge, met)) = met.into_iter().find(|&(_, met)| met < least) {
            return Err(format!("{edge} stations were met {met} times only"));
        }
        if self.tally.met(0) < least {
            return Err(format!("{} assemblies accepted only", self.tally.met(0)));
        }
        Ok(())
    }
}

/// The numbers of stations of a run: the edges in turn, then random ones, one in three not many
/// more than the old limit.
fn stations(rng: &mut Rng, index: u64) -> usize {
    match index % TURN {
        edge @ 0..4 => EDGES[edge as usize],
        4 | 5 => rng.between(EDGES[0], 2 * EDGES[0]),
        _ => rng.between(EDGES[0], EDGES[2]),
    }
}

/// Just the needed lengths, longer ones, and one place fewer in one buffer, each buffer in its
/// turn; for a refused problem any lengths.
fn lengths(rng: &mut Rng, judged: &Result<Assembled, Refusal>, index: u64) -> Vec<Lengths> {
    let Ok(assembled) = judged else {
        return vec![choose_lengths(rng, judged)];
    };
    let exact = needed(assembled);
    let longer = exact.map(|len| len + rng.between(1, 9));
    let mut short = exact.map(|len| len + rng.below(2));
    let buffer = (index % 8) as usize;
    short[buffer] = exact[buffer] - 1;
    vec![exact, longer, short]
}

impl fmt::Display for Large {
    fn fmt(&self, f: &mut fmt::Formatter) -> fmt::Result {
        for (stations, met) in EDGES.iter().zip(self.edges) {
            writeln!(f, "problems of {stations} stations {met:>4}")?;
        }
        writeln!(
            f,
            "{} problems damaged, {} accepted by sizing; entries compared {}",
            self.damaged, self.accepted, self.entries
        )?;
        writeln!(
            f,
            "the most of those accepted: {} stations, {} with 256 acceleration rows, \
             {} with 256 jerk rows, {:?}",
            self.stations, self.full[0], self.full[1], self.largest
        )?;
        write!(f, "{}", self.tally)
    }
}
