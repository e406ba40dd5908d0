//! What is measured: one job of each line.

use crate::sides::Sides;
use copp3_assembly::Assembly;
use reference::{Reserve, copp3_socp_core};
use std::hint::black_box;

pub struct Line {
    pub name: &'static str,
    /// One call, its result dropped.
    pub job: fn(&mut Sides),
}

/// The lines in the order in which a round runs them.
pub const LINES: [Line; 9] = [
    Line {
        name: "published files, over stand-ins for what they import",
        job: |sides| keep(published::published(&sides.lent)),
    },
    Line {
        name: "reference, room reserved as published",
        job: |sides| keep(copp3_socp_core(&sides.lent, Reserve::AsPublished)),
    },
    Line {
        name: "reference, growing vectors, nothing reserved",
        job: |sides| keep(copp3_socp_core(&sides.lent, Reserve::Nothing)),
    },
    Line {
        name: "reference, growing vectors, with all refusals",
        job: |sides| {
            keep(reference::assemble(
                &sides.lent,
                &[usize::MAX; 7],
                usize::MAX,
            ));
        },
    },
    Line {
        name: "library, buffers reused, not cleared",
        job: reused,
    },
    Line {
        name: "library, buffers reused, cleared first (clearing timed)",
        job: |sides| {
            clear(black_box(&mut sides.out));
            reused(sides);
        },
    },
    Line {
        name: "library, sized, then into fresh vectors",
        job: |sides| keep(copp3_assembly::assemble(&sides.problem)),
    },
    Line {
        name: "bare copy of the bytes written",
        job: |sides| {
            copy(&sides.written, &mut sides.out);
            black_box(&mut sides.out);
        },
    },
    Line {
        name: "library, sizing alone",
        job: |sides| keep(copp3_assembly::size(&sides.problem)),
    },
];

pub const PUBLISHED: usize = 0;
pub const GROWING: usize = 2;
pub const LIBRARY: usize = 4;
pub const COPY: usize = 7;

/// Jobs of one line, counted from 1, and nothing else.
pub fn work(sides: &mut Sides, line: usize, jobs: usize) {
    for _ in 0..jobs {
        (LINES[line - 1].job)(sides);
    }
}

fn keep<T, E>(result: Result<T, E>) {
    assert!(black_box(result).is_ok());
}

fn reused(sides: &mut Sides) {
    let mut buffers = sides.out.buffers();
    keep(copp3_assembly::assemble_into(&sides.problem, &mut buffers));
}

fn clear(out: &mut Assembly) {
    out.rows.fill(0);
    out.columns.fill(0);
    out.values.fill(0.0);
    out.right.fill(0.0);
    out.kinds.fill(0);
    out.dimensions.fill(0);
    out.cost.fill(0.0);
    out.index.fill(0);
}

fn copy(from: &Assembly, to: &mut Assembly) {
    to.rows.copy_from_slice(&from.rows);
    to.columns.copy_from_slice(&from.columns);
    to.values.copy_from_slice(&from.values);
    to.right.copy_from_slice(&from.right);
    to.kinds.copy_from_slice(&from.kinds);
    to.dimensions.copy_from_slice(&from.dimensions);
    to.cost.copy_from_slice(&from.cost);
    to.index.copy_from_slice(&from.index);
}
