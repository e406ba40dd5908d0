//! Times the library against the published Rust: `benchmark [rounds] [jobs]`.
//!
//! n = 4096 and n = 65,536, d = 6, six acceleration and six jerk rows at each
//! station, one objective of each kind. All sides get the same inputs, after
//! their output was found equal bit for bit. What is printed is Markdown.
//!
//! Every column is a run of this program of its own, in ordinary memory or with
//! an allocator that keeps what is freed: once with `jobs` calls of a line in a
//! row, by default the two hundred jobs of a shift, once with one call of each
//! line in turn, where they find each other's data in the caches. At the larger n
//! there are fewer of both. Last comes what an entry takes at either n, over what
//! a bare copy takes, from one run.

mod instructions;
mod lines;
mod measuring;
mod per_entry;
mod sides;
mod table;
mod times;

use measuring::{LARGER, SMALLER};
use sides::Sides;
use std::env;
use std::process::ExitCode;
use times::Effort;

/// The command line's number at a place.
fn number(place: usize, default: usize) -> Result<usize, String> {
    match env::args().nth(place) {
        None => Ok(default),
        Some(text) => match text.parse() {
            Ok(number) if number > 0 => Ok(number),
            _ => Err(format!("{text} is not a whole number above 0")),
        },
    }
}

/// Says what is measured, measures it in runs of its own, and prints the times.
fn times_at(n: usize, effort: Effort) -> Result<(), String> {
    let case = measuring::case(n);
    let objectives = case.ordinary().expect("objectives of known kinds");
    let counts = Sides::new(&case, &objectives).check()?;
    println!("{}", measuring::words(n));
    println!("{counts:?}, the same bits on all sides.\n");
    println!("{}", table::times(&times::columns(n, effort)?));
    Ok(())
}

fn everything(rounds: usize, jobs: usize) -> Result<(), String> {
    times_at(SMALLER, Effort::full(rounds, jobs))?;
    match instructions::count() {
        Ok(counted) => println!("{}", table::instructions(&counted)),
        Err(reason) => println!("Instructions are not counted: {reason}.\n"),
    }
    times_at(LARGER, Effort::less(rounds, jobs))?;
    print!("{}", per_entry::report(rounds, jobs)?);
    Ok(())
}

/// What a run started by this program does: times all lines, or works one line off.
fn run(mode: &str) -> Result<(), String> {
    let case = measuring::case(number(2, SMALLER)?);
    let objectives = case.ordinary().expect("objectives of known kinds");
    let mut sides = Sides::new(&case, &objectives);
    match mode {
        times::MODE => times::print(&mut sides, number(3, 1)?, number(4, 1)?),
        _ => lines::work(&mut sides, number(3, 1)?, number(4, 1)?),
    }
    Ok(())
}

/// What it does to time the library and the copy at both sizes.
fn both_sizes() -> Result<(), String> {
    per_entry::print(number(2, 1)?, number(3, 1)?);
    Ok(())
}

fn main() -> ExitCode {
    let mode = env::args().nth(1);
    let done = match mode.as_deref() {
        Some(mode @ (times::MODE | instructions::MODE)) => run(mode),
        Some(per_entry::MODE) => both_sizes(),
        _ => number(1, 11)
            .and_then(|rounds| Ok((rounds, number(2, 200)?)))
            .and_then(|(rounds, jobs)| everything(rounds, jobs)),
    };
    match done {
        Ok(()) => ExitCode::SUCCESS,
        Err(fault) => {
            eprintln!("{fault}");
            ExitCode::FAILURE
        }
    }
}
