//! The problem that is measured, at a number of stations.

use comparison::case::Case;
use comparison::rng::Rng;
use reference::sample::Sample;

/// The two sizes that are measured: the job of request 13, and the longest path.
pub const SMALLER: usize = 4096;
pub const LARGER: usize = 65_536;

const D: usize = 6;
const ROWS: usize = 6;

pub fn words(n: usize) -> String {
    format!(
        "n = {n}, d = {D}, six acceleration and six jerk rows per station, one objective of each \
         kind:"
    )
}

/// Everyday numbers and one stationary interval at each end.
pub fn case(n: usize) -> Case {
    let mut rng = Rng::new(13);
    let mut numbers = |len: usize| -> Vec<f64> { (0..len).map(|_| 0.1 + rng.unit()).collect() };
    let stations = n + 1;
    let mut sample = Sample::plain(n, (1, 1), D);
    let mut s = 0.0;
    for (position, step) in sample.grid.iter_mut().zip(numbers(stations)) {
        s += step;
        *position = s;
    }
    sample.rows = [vec![ROWS as u32; stations], vec![ROWS as u32; stations]];
    for table in 3..=9 {
        *sample.table_mut(table) = numbers(ROWS * stations);
    }
    *sample.table_mut(2) = numbers(stations);
    *sample.table_mut(10) = numbers(stations);
    for table in 11..=13 {
        *sample.table_mut(table) = numbers(D * stations);
    }
    let (scales, alpha, beta) = (numbers(D), numbers(stations), numbers(stations));
    Case::new(
        sample
            .with_time(1.0)
            .with_thermal(0.5, &scales)
            .with_variation(0.25, &scales)
            .with_linear(0.125, &alpha, &beta),
    )
}
