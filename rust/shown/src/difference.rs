//! Where two texts differ.

use std::fmt;

/// The first line that differs. Lines keep their line feeds, so that a missing one shows; a text
/// that has ended has no line.
#[derive(Debug, PartialEq, Eq)]
pub struct Difference<'a> {
    /// From 1 on.
    pub line: usize,
    pub found: Option<&'a str>,
    pub wanted: Option<&'a str>,
}

pub fn difference<'a>(found: &'a str, wanted: &'a str) -> Option<Difference<'a>> {
    let (mut left, mut right) = (found.split_inclusive('\n'), wanted.split_inclusive('\n'));
    for line in 1.. {
        match (left.next(), right.next()) {
            (None, None) => break,
            (found, wanted) if found == wanted => {}
            (found, wanted) => {
                return Some(Difference {
                    line,
                    found,
                    wanted,
                });
            }
        }
    }
    None
}

impl fmt::Display for Difference<'_> {
    fn fmt(&self, out: &mut fmt::Formatter) -> fmt::Result {
        let shown = |line: Option<&str>| match line {
            Some(line) => format!("{line:?}"),
            None => "no line".to_string(),
        };
        write!(
            out,
            "line {}\n  found:  {}\n  wanted: {}",
            self.line,
            shown(self.found),
            shown(self.wanted)
        )
    }
}
