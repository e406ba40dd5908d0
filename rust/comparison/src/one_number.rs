//! Refusal 20 aimed at single numbers: problems of finite numbers with exactly one fault.
//!
//! `written` puts it where a row or a cost is spoiled by it, and 20 is due; `unread`
//! where nothing reads it or nothing of it is written, and the problem stays accepted.

mod costs;
mod grids;
mod places;
mod torques;
mod unread;
mod written;

use crate::buffers::needed;
use crate::case::Case;
use crate::generate;
use crate::rng::{Flavour, Rng};
use crate::tally::Tally;
use reference::sample::Sample;

/// A class that finds no place in this many problems has none.
const DRAWS: usize = 100_000;

/// Puts the fault, or finds no place for it.
type Fault = Box<dyn Fn(&mut Rng, &mut Sample) -> Option<()>>;

/// One sort of fault.
pub struct Class {
    name: String,
    /// Only everyday numbers around the fault, so that it is the only large one.
    tame: bool,
    fault: Fault,
}

impl Class {
    /// A fault for problems of everyday and of extreme numbers.
    fn new(
        name: impl Into<String>,
        fault: impl Fn(&mut Rng, &mut Sample) -> Option<()> + 'static,
    ) -> Self {
        Self {
            name: name.into(),
            tame: false,
            fault: Box::new(fault),
        }
    }

    /// A fault for problems of everyday numbers.
    fn tame(
        name: impl Into<String>,
        fault: impl Fn(&mut Rng, &mut Sample) -> Option<()> + 'static,
    ) -> Self {
        let tame = true;
        Self {
            tame,
            ..Self::new(name, fault)
        }
    }
}

/// Classes with the answer that their faults lead to, and what was met of each.
pub struct Group {
    pub name: &'static str,
    answer: u64,
    classes: Vec<Class>,
    tallies: Vec<Tally>,
}

impl Group {
    fn new(name: &'static str, answer: u64, classes: Vec<Class>) -> Self {
        let tallies = vec![Tally::default(); classes.len()];
        Self {
            name,
            answer,
            classes,
            tallies,
        }
    }

    pub fn written() -> Self {
        let mut classes = written::classes();
        classes.extend(torques::classes());
        classes.extend(grids::classes());
        classes.extend(costs::classes());
        Self::new("written", 20, classes)
    }

    pub fn unread() -> Self {
        let mut classes = unread::classes();
        classes.extend(torques::harmless());
        classes.extend(grids::harmless());
        classes.extend(costs::harmless());
        Self::new("unread", 0, classes)
    }

    /// Compares `count` problems from `first` on, one class after another.
    pub fn run(&mut self, seed: u64, first: u64, count: u64) -> Result<(), String> {
        for index in first..first + count {
            let which = (index % self.classes.len() as u64) as usize;
            let mut rng = Rng::of_problem(seed, index);
            self.one(which, &mut rng).map_err(|fault| {
                let class = &self.classes[which].name;
                format!("{} {index} of seed {seed} ({class}): {fault}", self.name)
            })?;
        }
        Ok(())
    }

    fn one(&mut self, which: usize, rng: &mut Rng) -> Result<(), String> {
        let case = Case::new(draw(rng, &self.classes[which], self.answer)?);
        let tally = &mut self.tallies[which];
        crate::check(&case, rng, tally)?;
        // Once more with just enough room, so that no short buffer hides the fault.
        let judged = case.judge();
        let records = case.records(rng);
        let exact = judged.as_ref().map_or([0; 8], needed);
        crate::assembly(&case, &judged, &records, &exact, rng, tally)
    }

    /// An error names the first class that was met fewer than `least` times.
    pub fn covers(&self, least: u64) -> Result<(), String> {
        let mut met = self.classes.iter().zip(&self.tallies);
        match met.find(|(_, tally)| tally.problems < least) {
            None => Ok(()),
            Some((class, tally)) => Err(format!(
                "{}: {} was met {} times only",
                self.name, class.name, tally.problems
            )),
        }
    }

    /// How often each class was met, and its assemblies by answer.
    pub fn report(&self) -> String {
        let mut text = format!(
            "{:<58} {:>8} {:>9} {:>9} {:>9} {:>9}\n",
            self.name, "problems", "accepted", "19", "28", "20"
        );
        let all = self.tallies.iter().fold(Tally::default(), |mut all, one| {
            all.add(one);
            all
        });
        let names = self.classes.iter().map(|class| class.name.as_str());
        for (name, tally) in names.zip(&self.tallies).chain([("all", &all)]) {
            let [accepted, short, no_index, spoiled] =
                [0, 19, 28, 20].map(|number| tally.met(number));
            text += &format!(
                "{name:<58} {:>8} {accepted:>9} {short:>9} {no_index:>9} {spoiled:>9}\n",
                tally.problems
            );
        }
        text + "differences 0"
    }
}

/// A problem without a fault: every number is finite, save upper bounds.
fn whole(rng: &mut Rng, tame: bool) -> Sample {
    let n = match rng.below(100) {
        0..70 => rng.between(2, 8),
        70..96 => rng.between(4, 20),
        96..99 => rng.between(21, 90),
        _ => rng.between(91, 400),
    };
    let ends = generate::stationary(rng, n);
    let d = match rng.below(100) {
        0..3 => 32,
        _ => rng.between(1, 6),
    };
    let most = rng.pick(&[3, 3, 3, 3, 3, 3, 6, 6, 6, 16]);
    let count = rng.between(1, most);
    let flavour = if tame || rng.chance(80) {
        Flavour::Tame
    } else {
        Flavour::Mixed
    };
    let mut sample = generate::unspoiled(rng, n, ends, d, count, flavour);
    // Reciprocals above 1 at all stations; the lent roots stay true.
    if flavour == Flavour::Tame && rng.chance(30) {
        sample.grid.iter_mut().for_each(|s| *s *= 0.125);
    }
    sample
}

/// A problem that is accepted before the fault and answered by `answer` after it.
fn draw(rng: &mut Rng, class: &Class, answer: u64) -> Result<Sample, String> {
    for _ in 0..DRAWS {
        let before = whole(rng, class.tame);
        let mut after = before.clone();
        if (class.fault)(rng, &mut after).is_none() {
            continue;
        }
        match judge(&before) {
            0 => {}
            // Extreme numbers of the problem itself; another one, then.
            20 if !class.tame => continue,
            number => return Err(format!("the problem before the fault is refused {number}")),
        }
        let found = judge(&after);
        if found != answer {
            return Err(format!("the reference answers {found}, meant was {answer}"));
        }
        return Ok(after);
    }
    Err(format!("no place in {DRAWS} problems"))
}

/// The reference's answer where the buffers have room: 0 or the refusal's number.
fn judge(sample: &Sample) -> u64 {
    let answer = reference::assemble(&sample.problem(), &[usize::MAX; 7], usize::MAX);
    answer.map_or_else(|refusal| refusal.number, |_| 0)
}
