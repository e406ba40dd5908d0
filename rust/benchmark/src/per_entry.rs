//! Time per entry at both sizes: the library over a bare copy of the same bytes, in one run of this
//! program, size after size in each round.

use crate::lines::{COPY, LIBRARY, LINES};
use crate::measuring::{LARGER, SMALLER, case};
use crate::sides::Sides;
use crate::table::{row, rule};
use crate::times::{another_run, in_a_row, median};
use std::time::Duration;

/// How this program is told to time both sizes: `per-entry ROUNDS JOBS`.
pub const MODE: &str = "per-entry";

/// The largest accepted quotient: the ratio at the larger size over that at the smaller.
const ACCEPTED: f64 = 1.3;

const SIZES: [usize; 2] = [SMALLER, LARGER];
const TIMED: [usize; 2] = [LIBRARY, COPY];

/// Prints, of each size, a job's entries and its nanoseconds by the library and by the copy, medians
/// over the rounds. The larger size gets fewer jobs, so that both write about as much.
pub fn print(rounds: usize, jobs: usize) {
    let cases = SIZES.map(case);
    let objectives = cases
        .each_ref()
        .map(|case| case.ordinary().expect("objectives of known kinds"));
    let mut sides = [0, 1].map(|size| Sides::new(&cases[size], &objectives[size]));
    let fewer = (jobs * SMALLER / LARGER).max(1);
    let mut times: [[Vec<Duration>; 2]; 2] = Default::default();
    for _ in 0..rounds {
        for (size, jobs) in [jobs, fewer].into_iter().enumerate() {
            for (line, times) in TIMED.iter().zip(&mut times[size]) {
                times.push(in_a_row(&mut sides[size], &LINES[*line], jobs));
            }
        }
    }
    for (sides, times) in sides.iter().zip(&mut times) {
        println!("{}", sides.written.values.len());
        for times in times {
            println!("{}", median(times).as_secs_f64() * 1e9);
        }
    }
}

/// Measures both sizes in a run of its own, and tells it as a table with the quotient below.
pub fn report(rounds: usize, jobs: usize) -> Result<String, String> {
    let numbers = another_run(MODE, &[rounds, jobs], false, 3 * SIZES.len())?;
    let title = format!("time per entry, both sizes in one run, median of {rounds}");
    let titles = [
        title.as_str(),
        LINES[LIBRARY].name,
        LINES[COPY].name,
        "ratio",
    ];
    let mut text = row(titles.map(String::from)) + &rule(titles.len());
    let mut ratios = vec![];
    for (n, numbers) in SIZES.iter().zip(numbers.chunks(3)) {
        let [library, copy] = [numbers[1], numbers[2]].map(|time| time / numbers[0]);
        ratios.push(library / copy);
        text += &row([
            format!("n = {n}"),
            format!("{library:.3} ns"),
            format!("{copy:.3} ns"),
            format!("{:.3}", library / copy),
        ]);
    }
    let quotient = ratios[1] / ratios[0];
    let verdict = if quotient <= ACCEPTED {
        "accepted"
    } else {
        "too much"
    };
    Ok(text
        + &format!("\nQuotient of the ratios: {quotient:.3} (at most {ACCEPTED}: {verdict}).\n"))
}
