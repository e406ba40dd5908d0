//! Group W, wrong on purpose: copies of cases of the other groups, each with one thing wrong in
//! what is expected. The program that replays the list has to find none of them agreeing.

use crate::case::{Case, Wrong};
use crate::expected::Expected;
use reference::Assembled;

/// What that program's buffers hold before a call: with it a count that is one too high is the
/// only thing wrong.
const NUMBER: u64 = 13_876_516_240_719_085_568;
const FLOAT: f64 = -1234.5;
const BYTE: u8 = 0xa5;

/// Wrong in the answers, whether they are refusals or not.
const ANSWERS: [Wrong; 4] = [
    |e| e.sizing.number ^= 1,
    |e| e.sizing.place ^= 1,
    |e| e.assembly.place ^= 1,
    other_number,
];

/// One more of each count, where nothing is held.
const COUNTS: [Wrong; 4] = [
    |e| e.counts[0] += 1,
    |e| e.counts[1] += 1,
    |e| e.counts[2] += 1,
    |e| e.counts[3] += 1,
];

/// One more of each count, and of what is held by it.
const LONGER: [Wrong; 4] = [more_entries, more_rows, more_cones, more_columns];

/// The first and the last number of each buffer; of rows, columns and dimensions one is wrong in its
/// upper 32 bits alone.
const NUMBERS: [Wrong; 16] = [
    |e| *first(&mut held(e).row) ^= 1,
    |e| *last(&mut held(e).row) ^= 1 << 63,
    |e| *first(&mut held(e).col) ^= 1 << 32,
    |e| *last(&mut held(e).col) ^= 1,
    |e| flip(first(&mut held(e).val), 0),
    |e| flip(last(&mut held(e).val), 63),
    minus_zero,
    |e| flip(last(&mut held(e).b), 0),
    |e| *first(&mut held(e).cones.kinds) ^= 1,
    |e| *last(&mut held(e).cones.kinds) ^= 0x80,
    |e| *first(&mut held(e).cones.dims) ^= 1,
    |e| *last(&mut held(e).cones.dims) ^= 1 << 40,
    |e| flip(first(&mut held(e).q_object), 63),
    |e| flip(last(&mut held(e).q_object), 0),
    |e| *first(&mut held(e).index) ^= 1,
    |e| *last(&mut held(e).index) ^= 1 << 63,
];

/// Copies of an accepted case, of one refused before the buffers and of one refused at them.
pub fn cases(accepted: &Case, refused: &Case, short: &Case) -> Vec<Case> {
    let of_accepted = [&ANSWERS[..], &LONGER, &NUMBERS].concat();
    let of_refused = [&ANSWERS[..], &COUNTS].concat();
    let copies = [
        (accepted, of_accepted),
        (refused, of_refused.clone()),
        (short, of_refused),
    ];
    let copied = |(case, wrongs): (&Case, Vec<Wrong>)| {
        let copy = |wrong| Case {
            group: b'W',
            wrong: Some(wrong),
            ..case.clone()
        };
        wrongs.into_iter().map(copy).collect::<Vec<_>>()
    };
    copies.into_iter().flat_map(copied).collect()
}

fn held(expected: &mut Expected) -> &mut Assembled {
    expected.held.as_mut().expect("an accepted case")
}

fn first<T>(numbers: &mut [T]) -> &mut T {
    &mut numbers[0]
}

fn last<T>(numbers: &mut [T]) -> &mut T {
    numbers.last_mut().expect("a number")
}

fn flip(number: &mut f64, bit: u32) {
    *number = f64::from_bits(number.to_bits() ^ 1 << bit);
}

/// Another refusal; for an accepted case any, with which nothing is held.
fn other_number(expected: &mut Expected) {
    expected.assembly.number ^= 1;
    expected.held = None;
}

/// −0 for 0 in the right side.
fn minus_zero(expected: &mut Expected) {
    let mut right = held(expected).b.iter_mut();
    let zero = right.find(|number| number.to_bits() == 0);
    *zero.expect("a zero") = -0.0;
}

fn more_entries(expected: &mut Expected) {
    expected.counts[0] += 1;
    let out = held(expected);
    out.row.push(NUMBER);
    out.col.push(NUMBER);
    out.val.push(FLOAT);
}

fn more_rows(expected: &mut Expected) {
    expected.counts[1] += 1;
    held(expected).b.push(FLOAT);
}

fn more_cones(expected: &mut Expected) {
    expected.counts[2] += 1;
    let cones = &mut held(expected).cones;
    cones.kinds.push(BYTE);
    cones.dims.push(NUMBER);
}

fn more_columns(expected: &mut Expected) {
    expected.counts[3] += 1;
    held(expected).q_object.push(FLOAT);
}
