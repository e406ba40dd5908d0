//! Times of all lines: a run of its own for each column, and what such a run does.

use crate::lines::{LINES, Line};
use crate::sides::Sides;
use std::env;
use std::process::Command;
use std::time::{Duration, Instant};

/// How this program is told to time the lines: `times N ROUNDS JOBS`.
pub const MODE: &str = "times";

/// glibc's names for keeping freed memory, with values above 1 GB.
const KEEP: &str = "glibc.malloc.mmap_threshold=2000000000:glibc.malloc.trim_threshold=2000000000";

/// How often a size is measured.
#[derive(Clone, Copy)]
pub struct Effort {
    /// Rounds with so many jobs of a line in a row.
    rounds: usize,
    jobs: usize,
    /// Rounds with one job of each line in turn, which are short.
    turns: usize,
}

impl Effort {
    pub fn full(rounds: usize, jobs: usize) -> Self {
        let turns = 9 * rounds;
        Self {
            rounds,
            jobs,
            turns,
        }
    }

    /// For a job that takes sixteen times as long.
    pub fn less(rounds: usize, jobs: usize) -> Self {
        Self {
            rounds: rounds.min(3),
            jobs: (jobs / 64).max(1),
            turns: rounds.min(5),
        }
    }
}

/// A job's time of each line, in milliseconds.
pub struct Column {
    pub title: String,
    pub times: Vec<f64>,
}

/// All four columns of a path of n intervals.
pub fn columns(n: usize, effort: Effort) -> Result<Vec<Column>, String> {
    let Effort {
        rounds,
        jobs,
        turns,
    } = effort;
    let mut columns = vec![];
    for (memory, keep) in [("ordinary memory", false), ("memory kept", true)] {
        let in_a_row = format!("{memory}, {jobs} jobs in a row, median of {rounds}");
        columns.push(column(in_a_row, [n, rounds, jobs], keep)?);
        let in_turn = format!("{memory}, one job of each in turn, median of {turns}");
        columns.push(column(in_turn, [n, turns, 1], keep)?);
    }
    Ok(columns)
}

/// Runs this program again, with or without an allocator that keeps freed memory.
fn column(title: String, numbers: [usize; 3], keep: bool) -> Result<Column, String> {
    let times = another_run(MODE, &numbers, keep, LINES.len())?;
    Ok(Column { title, times })
}

/// What another run of this program prints: so many numbers, each on a line.
pub fn another_run(
    mode: &str,
    numbers: &[usize],
    keep: bool,
    count: usize,
) -> Result<Vec<f64>, String> {
    let program = env::current_exe().map_err(|fault| fault.to_string())?;
    let mut command = Command::new(program);
    command.arg(mode);
    command.args(numbers.iter().map(usize::to_string));
    command.env_remove("GLIBC_TUNABLES");
    if keep {
        command.env("GLIBC_TUNABLES", KEEP);
    }
    let output = command.output().map_err(|fault| fault.to_string())?;
    let text = String::from_utf8_lossy(&output.stdout);
    let printed: Vec<f64> = text.lines().filter_map(|line| line.parse().ok()).collect();
    if !output.status.success() || printed.len() != count {
        let fault = String::from_utf8_lossy(&output.stderr);
        return Err(format!("{mode} {numbers:?}: {} {fault}", output.status));
    }
    Ok(printed)
}

/// Prints each line's time of a job in milliseconds, medians over the rounds.
pub fn print(sides: &mut Sides, rounds: usize, jobs: usize) {
    let mut times = vec![Vec::with_capacity(rounds); LINES.len()];
    for _ in 0..rounds {
        for (line, times) in LINES.iter().zip(&mut times) {
            times.push(in_a_row(sides, line, jobs));
        }
    }
    for times in &mut times {
        println!("{}", median(times).as_secs_f64() * 1e3);
    }
}

/// A job's time, of so many in a row.
pub fn in_a_row(sides: &mut Sides, line: &Line, jobs: usize) -> Duration {
    let begin = Instant::now();
    for _ in 0..jobs {
        (line.job)(sides);
    }
    begin.elapsed() / jobs as u32
}

pub fn median(times: &mut [Duration]) -> Duration {
    times.sort();
    times[times.len() / 2]
}
