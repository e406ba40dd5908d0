//! The tables, as Markdown that a note can take over.

use crate::lines::{COPY, GROWING, LIBRARY, LINES, PUBLISHED};
use crate::times::Column;

/// A line of cells.
pub fn row(cells: impl IntoIterator<Item = String>) -> String {
    let cells: Vec<String> = cells.into_iter().collect();
    format!("| {} |\n", cells.join(" | "))
}

pub fn rule(columns: usize) -> String {
    format!("|{}\n", "---|".repeat(columns))
}

/// Milliseconds; three places where two would leave little.
fn milliseconds(time: f64) -> String {
    if time < 0.1 {
        format!("{time:.3}")
    } else {
        format!("{time:.2}")
    }
}

/// A job's time of each line and column, with its ratio to the published files.
pub fn times(columns: &[Column]) -> String {
    let titles = columns.iter().map(|column| column.title.clone());
    let mut text = String::from("A job's time in ms, and its ratio to the published files.\n\n");
    text += &row([String::new()].into_iter().chain(titles));
    text += &rule(1 + columns.len());
    for (which, line) in LINES.iter().enumerate() {
        let cells = columns.iter().map(|column| {
            let (time, base) = (column.times[which], column.times[PUBLISHED]);
            format!("{} ({:.2})", milliseconds(time), time / base)
        });
        text += &row([line.name.to_string()].into_iter().chain(cells));
    }
    for base in [GROWING, COPY] {
        let name = format!(
            "ratio of \"{}\" to \"{}\"",
            LINES[LIBRARY].name, LINES[base].name
        );
        let ratio = |column: &Column| column.times[LIBRARY] / column.times[base];
        let cells = columns.iter().map(|column| format!("{:.2}", ratio(column)));
        text += &row([name].into_iter().chain(cells));
    }
    text
}

/// Instructions of a job, with their ratio to the first line.
pub fn instructions(counted: &[(usize, u64)]) -> String {
    let title = "instructions a job, (3 jobs - 1 job) / 2 by callgrind";
    let mut text = row([title, "millions", "ratio"].map(String::from));
    text += &rule(3);
    let base = counted.first().map_or(1, |first| first.1) as f64;
    for &(line, number) in counted {
        let number = number as f64;
        text += &row([
            LINES[line].name.to_string(),
            format!("{:.2}", number / 1e6),
            format!("{:.2}", number / base),
        ]);
    }
    text
}
