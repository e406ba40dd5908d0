//! Holds the reference against what the published files hand to the solver.

use crate::Given;
use reference::Assembled;
use reference::sample::Sample;

/// Tables 14 and 15 as the published code takes them itself.
pub fn own_roots(sample: &mut Sample) {
    let s = sample.grid.clone();
    let n = s.len() - 1;
    let (n0, n1) = sample.num_stationary;
    let root = |k: usize, e: usize, end: usize| ((s[k] - s[end]) / (s[e] - s[end])).cbrt();
    *sample.table_mut(14) = (1..n0).map(|k| root(k, n0, 0)).collect();
    *sample.table_mut(15) = (1..n1).map(|k| root(k, n - n1, n)).collect();
}

/// Bits of a number; NaN has many, and which one comes out is left open.
fn bits(numbers: &[f64]) -> Vec<u64> {
    let bits = |number: &f64| {
        if number.is_nan() {
            0x7ff8 << 48
        } else {
            number.to_bits()
        }
    };
    numbers.iter().map(bits).collect()
}

/// Row numbers, column numbers and dimensions as the reference keeps them.
fn longs(numbers: &[usize]) -> Vec<u64> {
    numbers.iter().map(|&number| number as u64).collect()
}

/// Stops at the first list that differs.
pub fn assert_same(given: &Given, ours: &Assembled) {
    assert_eq!(given.rows, ours.b.len());
    assert_eq!(given.columns, ours.q_object.len());
    assert_eq!(longs(&given.row), ours.row);
    assert_eq!(longs(&given.col), ours.col);
    assert_eq!(bits(&given.val), bits(&ours.val));
    assert_eq!(bits(&given.b), bits(&ours.b));
    assert_eq!(bits(&given.q), bits(&ours.q_object));
    let (kinds, dims): (Vec<u8>, Vec<usize>) = given.cones.iter().copied().unzip();
    assert_eq!(kinds, ours.cones.kinds);
    assert_eq!(longs(&dims), ours.cones.dims);
}
