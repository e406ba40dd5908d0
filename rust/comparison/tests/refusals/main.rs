//! A table of refusals, typed from the documents: an accepted problem changed in one place or in
//! two, and the number and place that documents 01 and 02 give (40: docs/DECISIONS.md).
//!
//! Both sides of each limit, each rule for a place, pairs of faults at once for the order, what is
//! not read. The library is asked every row, and the reference apart from it.

mod asking;
mod buffers;
mod changes;
mod kinds;
mod path;
mod row;
mod set_up;
mod tables;

use copp3_assembly::raw;
use row::{Row, rows};

fn table() -> Vec<Row> {
    [
        path::rows(),
        set_up::rows(),
        tables::rows(),
        buffers::rows(),
        kinds::rows(),
    ]
    .into_iter()
    .flatten()
    .collect()
}

/// Asks every row, and names all that are answered otherwise.
fn ask(whom: &str, ask: fn(&Row) -> Result<(), String>) {
    let table = table();
    let wrong: Vec<String> = table
        .iter()
        .filter_map(|row| Some(format!("{}: {}", row.name(), ask(row).err()?)))
        .collect();
    println!("{whom}: {} rows, {} wrong", table.len(), wrong.len());
    assert!(wrong.is_empty(), "{whom}:\n{}", wrong.join("\n"));
}

#[test]
fn library() {
    ask("the library", asking::library);
}

#[test]
fn reference() {
    ask("the reference", asking::reference);
}

/// The table has rows of every refusal, and accepted ones.
#[test]
fn every_number() {
    let table = table();
    for number in (0..=20).chain([28, 40]) {
        let rows = table.iter().filter(|row| row.answer.0 == number).count();
        println!("number {number:>2}: {rows:>3} rows");
        assert!(rows >= 4, "number {number} has {rows} rows");
    }
}

/// The base's four counts by document 01's formulas: p = 2, m = 3, L = 4, u = 4, A' = 2, J' = 1.
#[test]
fn base_counts() {
    let base = &rows! { [] gives row::ACCEPTED; }[0];
    let case = base.case();
    let sized = raw::size(case.job(), asking::records(&case), &case.tables());
    let standard = [3 + 6 + 30 + 4 + 4 + 3, 3 + 4 + 12 + 4 + 2 + 1, 2, 16];
    let root_and_time = [16 + 20, 16 + 16, 5 + 5, 4 + 4];
    let thermal = [(4 + 4) * 6, (2 + 2) * 6, 6, 6];
    let torque = [6 * 2 * 2 + 10 * 2 * 3, 2 * 2 * 5, 1, 2 * 5];
    let counts = [sized.entries, sized.rows, sized.cones, sized.columns];
    for i in 0..4 {
        let typed: u64 = standard[i] + root_and_time[i] + thermal[i] + torque[i];
        assert_eq!(counts[i], typed);
    }
}
