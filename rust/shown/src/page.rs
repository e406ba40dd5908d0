//! The page of an answer.

use crate::answer::{Answer, answer};
use crate::names::{cone, numbered};
use crate::numbers::{term, text};
use crate::pattern::pattern;
use crate::sentences::sentence;
use published::Given;
use reference::Refusal;
use reference::sample::Sample;

pub fn page(sample: &Sample) -> String {
    match answer(sample) {
        Ok(answer) => accepted(&answer),
        Err(refusal) => refused(refusal),
    }
}

fn refused(refusal: Refusal) -> String {
    let Refusal { number, place } = refusal;
    format!(
        "refused {number}, place {place}: {}.\n",
        sentence(number, place)
    )
}

fn accepted(answer: &Answer) -> String {
    let given = &answer.given;
    let words = answer.owners.words(given.columns);
    let names = numbered(&words);
    let mut page = format!(
        "entries {}, rows {}, cones {}, columns {}\n",
        given.val.len(),
        given.rows,
        given.cones.len(),
        given.columns
    );
    page += &cones(answer, &names);
    page += &cost(given, &names);
    page += &pattern(given, &words);
    page
}

/// Each cone with its rows.
fn cones(answer: &Answer, names: &[String]) -> String {
    let mut lines = String::new();
    let mut first = 0;
    for (number, &(kind, dimension)) in answer.given.cones.iter().enumerate() {
        let owner = answer.owners.of_row(first);
        lines += &format!(
            "cone {number}: {}, dimension {dimension}, {owner}\n",
            cone(kind)
        );
        for at in first..first + dimension {
            lines += &row(&answer.given, names, at);
        }
        first += dimension;
    }
    lines
}

fn row(given: &Given, names: &[String], at: usize) -> String {
    let own = (0..given.val.len()).filter(|&entry| given.row[entry] == at);
    let terms: String = own
        .map(|entry| term(given.val[entry], &names[given.col[entry]]))
        .collect();
    format!("  {at}:{terms} + s = {}\n", text(given.b[at]))
}

fn cost(given: &Given, names: &[String]) -> String {
    let charged = given.q.iter().zip(names).filter(|(cost, _)| **cost != 0.0);
    let terms: String = charged.map(|(cost, name)| term(*cost, name)).collect();
    format!("cost:{terms}\n")
}
