//! Where the matrix has entries, and of which sign.

use published::Given;

pub fn pattern(given: &Given, words: &[&str]) -> String {
    let letters: String = words
        .iter()
        .filter_map(|word| word.chars().next())
        .collect();
    let mut lines = format!("pattern:\n  {letters}\n");
    for row in 0..given.rows {
        let signs: String = (0..given.columns)
            .map(|column| sign_at(given, row, column))
            .collect();
        lines += &format!("  {signs}  {row}\n");
    }
    lines
}

/// The first entry at a position counts.
fn sign_at(given: &Given, row: usize, column: usize) -> char {
    let here = |entry: &usize| given.row[*entry] == row && given.col[*entry] == column;
    match (0..given.val.len()).find(here) {
        None => '.',
        Some(entry) => sign(given.val[entry]),
    }
}

/// NaN, which no assembled problem has, would be told like a zero.
fn sign(x: f64) -> char {
    if x > 0.0 {
        '+'
    } else if x < 0.0 {
        '-'
    } else {
        '0'
    }
}
