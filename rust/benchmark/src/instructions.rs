//! Instructions of a job, as callgrind counts them over this program.

use crate::lines::{GROWING, LIBRARY, PUBLISHED};
use crate::measuring::SMALLER;
use std::env;
use std::process::Command;

/// How this program is told to do jobs of one line only: `work N LINE JOBS`.
pub const MODE: &str = "work";

/// Line and instructions of a job, for the lines that are compared.
pub fn count() -> Result<Vec<(usize, u64)>, String> {
    let mut counted = vec![];
    for line in [PUBLISHED, GROWING, LIBRARY] {
        // What comes before the first job and what only the first does cancel out.
        let (one, three) = (collected(line, 1)?, collected(line, 3)?);
        counted.push((line, three.saturating_sub(one) / 2));
    }
    Ok(counted)
}

/// The instructions of a whole run with so many jobs.
fn collected(line: usize, jobs: usize) -> Result<u64, String> {
    let program = env::current_exe().map_err(|fault| fault.to_string())?;
    let output = Command::new("valgrind")
        .args(["--tool=callgrind", "--callgrind-out-file=/dev/null"])
        .arg(program)
        .args([MODE, &SMALLER.to_string()])
        .args([(line + 1).to_string(), jobs.to_string()])
        .output()
        .map_err(|fault| format!("valgrind can't be run ({fault})"))?;
    let text = String::from_utf8_lossy(&output.stderr);
    let found = text
        .lines()
        .find_map(|line| line.split_once("Collected :"))
        .and_then(|(_, number)| number.trim().parse().ok());
    match found {
        Some(number) if output.status.success() => Ok(number),
        _ => Err(format!(
            "valgrind can't run this program ({})",
            output.status
        )),
    }
}
