//! Writes a fixed list of problems with the reference's answers: `vectors FILE`.
//! With `vectors FILE check` the file is compared with what would be written.
//!
//! A program without Rust at hand replays the list. Nothing in it is random
//! beyond fixed seeds, so the same source writes the same bytes. The answers of
//! group P are found equal to the published files' first; those of group W are
//! wrong on purpose, each at one place, so that the program is seen to fail.
//!
//! The file is a row of cases up to its end, without alignment. Numbers have
//! their lowest byte first; a float is its eight bytes. A case is
//!
//! ```text
//! 1 byte      group, as a letter
//! 4 x 8 bytes d, N0, N1, number of objectives
//! 8 floats    initial a, terminal a, initial b, terminal b,
//!             start maximum, start minimum, end maximum, end minimum
//! 19 x 4      lengths: grid, tables 0 to 15, pool, objective records
//!             grid (floats), tables 0 and 1 (4 bytes each number),
//!             tables 2 to 15 (floats), pool (floats)
//!             records: kind (1 byte), weight (float), start, length, second
//!             start, second length (8 bytes each)
//! 8 x 4       lengths of the buffers lent to the assembly, the index's last
//! 6 x 4       sizing's answer: number, place, entries, rows, cones, columns
//! 2 x 4       the assembly's answer: number, place
//!             if that number is 0, what the buffers hold below the counts: rows
//!             and columns (8 bytes each), values and right side (floats), kinds
//!             (1 byte each), dimensions (8 bytes each), cost (floats); then
//!             the index below 8 x (number of objectives + 2) (8 bytes each)
//! ```

mod case;
mod expected;
mod file;
mod list;
mod wrong;

use std::env;
use std::fs;
use std::process::ExitCode;

/// The program that replays the list keeps one case, and takes fewer bytes of it than this.
const TOO_LONG: usize = 65_536;

/// A group's letter, and how many cases it has.
type Group = (char, usize);

/// The list's bytes, and its groups.
fn list() -> Result<(Vec<u8>, Vec<Group>), String> {
    let (mut bytes, mut groups) = (vec![], Vec::<Group>::new());
    for (number, case) in list::cases().iter().enumerate() {
        let own = case.bytes();
        if own.len() >= TOO_LONG {
            return Err(format!("case {number} has {} bytes", own.len()));
        }
        bytes.extend(own);
        match groups.last_mut() {
            Some((group, cases)) if *group == case.group.into() => *cases += 1,
            _ => groups.push((case.group.into(), 1)),
        }
    }
    Ok((bytes, groups))
}

/// Writes the file, or compares it where that is asked for.
fn write_or_check(path: &str, bytes: &[u8], check: bool) -> Result<(), String> {
    let told = |fault: std::io::Error| format!("{path}: {fault}");
    if !check {
        return fs::write(path, bytes).map_err(told);
    }
    if fs::read(path).map_err(told)? != bytes {
        return Err(format!("{path} is not what the reference answers"));
    }
    Ok(())
}

fn run(path: &str, check: bool) -> Result<(), String> {
    let (bytes, groups) = list()?;
    write_or_check(path, &bytes, check)?;
    for (group, cases) in &groups {
        println!("{group} {cases}");
    }
    let cases: usize = groups.iter().map(|(_, cases)| cases).sum();
    println!("{cases} cases, {} bytes", bytes.len());
    Ok(())
}

fn main() -> ExitCode {
    let arguments: Vec<String> = env::args().skip(1).collect();
    let (path, check) = match arguments.as_slice() {
        [path] => (path, false),
        [path, word] if word == "check" => (path, true),
        _ => {
            eprintln!("usage: vectors FILE [check]");
            return ExitCode::FAILURE;
        }
    };
    match run(path, check) {
        Ok(()) => ExitCode::SUCCESS,
        Err(fault) => {
            eprintln!("{fault}");
            ExitCode::FAILURE
        }
    }
}

#[cfg(test)]
mod tests {
    /// The file in the repository is the list, and the lines that the replaying program has to
    /// print of it name its groups: all cases agree, save those that are wrong on purpose.
    #[test]
    fn replayed_file_and_lines() {
        let (bytes, groups) = super::list().unwrap();
        assert!(bytes == include_bytes!("../../../crates/replay/stdin"));
        let line = |(group, cases): &super::Group| {
            let agreeing = if *group == 'W' { 0 } else { *cases };
            format!("{group} {cases} {agreeing}\n")
        };
        let lines: String = groups.iter().map(line).collect();
        assert_eq!(lines, include_str!("../../../crates/replay/stdout"));
    }
}
