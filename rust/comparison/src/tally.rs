//! How many problems and calls were compared, and what became of them.

use reference::owners::Asked;
use std::fmt;

/// Where an index comes from that is asked for owners.
#[derive(Clone, Copy, PartialEq, Eq)]
pub enum Source {
    /// The assembly has written it.
    Written,
    /// Nothing has, or it was damaged since.
    Any,
}

/// The questions for owners, as they are counted.
const QUESTIONS: [(Source, Asked, &str); 4] = [
    (Source::Written, Asked::Row, "rows, written index"),
    (Source::Written, Asked::Column, "columns, written index"),
    (Source::Any, Asked::Row, "rows, any index"),
    (Source::Any, Asked::Column, "columns, any index"),
];

/// Several of 19, 28 and 20 due at once; the first of them is answered.
const TOGETHER: [([bool; 3], &str); 4] = [
    ([true, true, false], "19 and 28 at once"),
    ([true, false, true], "19 and 20 at once"),
    ([false, true, true], "28 and 20 at once"),
    ([true, true, true], "19, 28 and 20 at once"),
];

/// Calls of the assembly by answer: 0 accepted, else the refusal's number.
#[derive(Clone)]
pub struct Tally {
    pub problems: u64,
    answers: [u64; 41],
    /// Assemblies with several faults, in the order of `TOGETHER`.
    together: [u64; 4],
    /// Calls of both functions on owners by answer 0, 28 and 29, in the order of `QUESTIONS`.
    owners: [[u64; 3]; 4],
}

impl Default for Tally {
    fn default() -> Self {
        Self {
            problems: 0,
            answers: [0; 41],
            together: [0; 4],
            owners: [[0; 3]; 4],
        }
    }
}

fn add(counts: &mut [u64], more: &[u64]) {
    for (count, more) in counts.iter_mut().zip(more) {
        *count += more;
    }
}

impl Tally {
    pub fn count(&mut self, number: u64) {
        self.answers[number as usize] += 1;
    }

    /// Counts which of 19, 28 and 20 are due, where it is more than one.
    pub fn count_faults(&mut self, faults: [bool; 3]) {
        if let Some(at) = TOGETHER.iter().position(|&(due, _)| due == faults) {
            self.together[at] += 1;
        }
    }

    /// Counts an answer about an owner.
    pub fn count_owner(&mut self, source: Source, asked: Asked, number: u64) {
        let question = QUESTIONS
            .iter()
            .position(|&(from, what, _)| (from, what) == (source, asked));
        let answer = [0, 28, 29].iter().position(|&known| known == number);
        if let (Some(question), Some(answer)) = (question, answer) {
            self.owners[question][answer] += 1;
        }
    }

    /// How many calls had this answer.
    pub fn met(&self, number: u64) -> u64 {
        self.answers[number as usize]
    }

    pub fn add(&mut self, other: &Self) {
        self.problems += other.problems;
        add(&mut self.answers, &other.answers);
        add(&mut self.together, &other.together);
        for (counts, more) in self.owners.iter_mut().zip(&other.owners) {
            add(counts, more);
        }
    }

    pub fn calls(&self) -> u64 {
        self.answers.iter().sum()
    }

    /// The answers that a run has to meet: acceptance, 1 to 20, 28, and 40.
    fn classes() -> impl Iterator<Item = usize> {
        (0..=20).chain([28, 40])
    }

    /// What a run has to meet, by name, with how often it was met.
    fn due(&self) -> impl Iterator<Item = (String, u64)> + '_ {
        let answers =
            Self::classes().map(|number| (format!("answer {number}"), self.answers[number]));
        let together = TOGETHER.iter().zip(self.together);
        let together = together.map(|((_, name), met)| (name.to_string(), met));
        let owners = QUESTIONS
            .iter()
            .zip(self.owners)
            .flat_map(|(question, met)| {
                let (source, _, name) = question;
                let named = [0, 28, 29].map(|number| format!("answer {number} ({name})"));
                // A written index is never too short.
                let possible = [true, *source == Source::Any, true];
                let counted = named.into_iter().zip(met).zip(possible);
                counted.filter_map(|(count, possible)| possible.then_some(count))
            });
        answers.chain(together).chain(owners)
    }

    /// An error names the first answer that was met fewer than `least` times.
    pub fn covers(&self, least: u64) -> Result<(), String> {
        match self.due().find(|&(_, met)| met < least) {
            None => Ok(()),
            Some((name, met)) => Err(format!("{name} was met {met} times only")),
        }
    }
}

impl fmt::Display for Tally {
    fn fmt(&self, f: &mut fmt::Formatter) -> fmt::Result {
        writeln!(
            f,
            "{} problems, {} assemblies compared",
            self.problems,
            self.calls()
        )?;
        writeln!(f, "accepted    {:>9}", self.answers[0])?;
        for number in Self::classes().skip(1) {
            writeln!(f, "refused {number:>2}  {:>9}", self.answers[number])?;
        }
        for ((_, name), met) in TOGETHER.iter().zip(self.together) {
            writeln!(f, "{name:<21} {met:>9}")?;
        }
        writeln!(f, "{:<22} {:>9} {:>9} {:>9}", "owners", "found", "28", "29")?;
        for ((_, _, name), [found, short, none]) in QUESTIONS.iter().zip(self.owners) {
            writeln!(f, "{name:<22} {found:>9} {short:>9} {none:>9}")?;
        }
        write!(f, "differences         0")
    }
}
