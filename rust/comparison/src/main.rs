//! Compares the library with the reference: `compare [problems] [seed] [first]`.
//!
//! `compare one-number [problems] [seed] [first] [written|unread]` takes problems with
//! one fault each, aimed at refusal 20: as many of each group, or of the one named.
//!
//! `compare large [problems] [seed] [first]` takes problems of 4,097 to 65,538 stations.

use comparison::large::{Large, MOST_ENTRIES};
use comparison::one_number::Group;
use comparison::run;
use comparison::tally::Tally;
use std::env;
use std::process::ExitCode;

fn argument(place: usize, default: u64) -> Result<u64, String> {
    match env::args().nth(place) {
        None => Ok(default),
        Some(text) => text
            .parse()
            .map_err(|_| format!("{text} is not a whole number")),
    }
}

fn compare() -> Result<(), String> {
    match env::args().nth(1).as_deref() {
        Some("one-number") => return one_number(),
        Some("large") => return large(),
        _ => {}
    }
    let mut tally = Tally::default();
    let (count, seed, first) = (argument(1, 200_000)?, argument(2, 1)?, argument(3, 0)?);
    run(seed, first, count, &mut tally)?;
    println!("{tally}");
    Ok(())
}

fn one_number() -> Result<(), String> {
    let (count, seed, first) = (argument(2, 100_000)?, argument(3, 1)?, argument(4, 0)?);
    let groups = match env::args().nth(5).as_deref() {
        None => vec![Group::written(), Group::unread()],
        Some("written") => vec![Group::written()],
        Some("unread") => vec![Group::unread()],
        Some(name) => return Err(format!("{name} is no group")),
    };
    for mut group in groups {
        group.run(seed, first, count)?;
        println!("{}", group.report());
    }
    Ok(())
}

fn large() -> Result<(), String> {
    let (count, seed, first) = (argument(2, 300)?, argument(3, 1)?, argument(4, 0)?);
    let mut met = Large::default();
    met.run(seed, first, count, MOST_ENTRIES)?;
    println!("{met}");
    Ok(())
}

fn main() -> ExitCode {
    match compare() {
        Ok(()) => ExitCode::SUCCESS,
        Err(fault) => {
            eprintln!("{fault}");
            ExitCode::FAILURE
        }
    }
}
