//! What the published Rust does on the inputs of docs/DIFFERENCES.md: where the port refuses, where
//! it is lent what the Rust works out, and two faults that the port keeps.

use published::against::{assert_same, own_roots};
use published::copp::copp3::builder::{builder_lets_by, thermal_weights};
use published::diag::CoppError;
use published::{Given, messages, published};
use reference::judge;
use reference::sample::Sample;
use std::panic::catch_unwind;

fn time(n: usize, ends: (usize, usize)) -> Sample {
    Sample::plain(n, ends, 1).with_time(1.0)
}

fn refusal(sample: &Sample) -> (u64, u64) {
    let problem = sample.problem();
    match judge(&problem).and_then(|out| reference::refusals::not_finite(&out)) {
        Ok(()) => (0, 0),
        Err(refusal) => (refusal.number, refusal.place),
    }
}

fn run(sample: &Sample) -> Given {
    published(&sample.problem()).expect("the published Rust lets it by")
}

fn finite(numbers: &[f64]) -> bool {
    numbers.iter().all(|number| number.is_finite())
}

fn with_jerk_row(mut sample: Sample, station: usize) -> Sample {
    sample.rows[1][station] = 1;
    for table in 6..=9 {
        *sample.table_mut(table) = vec![1.0];
    }
    sample
}

/// Why the published Rust panics.
fn panic_of(sample: &Sample) -> String {
    let caught = catch_unwind(|| published(&sample.problem()).map(|given| given.rows));
    let payload = caught.expect_err("a panic");
    let text = payload.downcast_ref::<&str>().map(|text| text.to_string());
    text.or(payload.downcast_ref::<String>().cloned())
        .expect("a text")
}

#[test]
fn refusals_are_texts() {
    let sample = Sample::plain(2, (0, 0), 1).with_time(f64::NAN);
    assert_eq!(refusal(&sample), (11, 0));
    let Err(CoppError::InvalidInput(function, text)) = published(&sample.problem()) else {
        panic!("the published validator lets NaN by");
    };
    assert_eq!(function, "copp3_socp");
    let told = "objectives[0]::Time(weight=NaN) must be finite and non-negative";
    assert_eq!(text, told);
}

/// The estimate leaves out xi: 8 columns of a and b and 3 of Time, where L = 2 and 2 are needed.
#[test]
fn sizing_the_estimate_of_columns_is_too_low() {
    let sample = time(3, (0, 0));
    let told = messages(&sample.problem()).unwrap();
    assert!(told[0].ends_with(", n_vars=11."), "{}", told[0]);
    assert_eq!(run(&sample).columns, 12);
    assert_eq!(reference::size(&sample.problem()).unwrap().columns, 12);
}

#[test]
fn refusal_5_any_length_is_assembled() {
    let sample = time(65_537, (0, 0));
    assert_eq!(refusal(&sample), (5, 0));
    assert_eq!(run(&sample).columns, 2 * 65_538 + 2 * 65_536);
}

#[test]
fn refusal_6_grid_numbers_reach_the_values() {
    let mut sample = time(2, (0, 0));
    sample.grid[1] = f64::NAN;
    assert_eq!(refusal(&sample), (6, 1));
    assert!(!finite(&run(&sample).val));
}

#[test]
fn refusal_7_coinciding_stations_put_infinity_into_jerk_rows() {
    let mut sample = with_jerk_row(time(2, (0, 0)), 1);
    sample.grid[2] = 1.0;
    assert_eq!(refusal(&sample), (7, 2));
    assert!(run(&sample).val.contains(&f64::INFINITY));
}

#[test]
fn refusals_8_and_10_any_number_is_assembled() {
    let wide = Sample::plain(2, (0, 0), 33).with_thermal(1.0, &[1.0; 33]);
    assert_eq!(refusal(&wide), (8, 0));
    assert_eq!(run(&wide).cones.last(), Some(&(2, 35)));
    let many = (0..17).fold(Sample::plain(2, (0, 0), 1), |s, _| s.with_time(1.0));
    assert_eq!(refusal(&many), (10, 0));
    assert_eq!(run(&many).columns, 6 + 1 + 17);
    let none = Sample::plain(2, (0, 0), 0).with_time(1.0);
    assert_eq!(refusal(&none), (8, 0));
    assert_eq!(run(&none).columns, 6 + 1 + 1);
}

/// `n - num_stationary.0 - num_stationary.1` and the like: a panic where overflow is checked; else
/// a number wraps, and there is an entry whose value is lost.
#[test]
fn refusal_14_the_moving_stretch_underflows() {
    let sample = time(3, (1, 2));
    assert_eq!(refusal(&sample), (14, 0));
    if cfg!(debug_assertions) {
        assert_eq!(panic_of(&sample), "attempt to subtract with overflow");
    } else {
        let given = run(&sample);
        assert_eq!((given.row.len(), given.val.len()), (19, 18));
    }
}

#[test]
fn refusal_14_stations_are_indexed_out_of_range() {
    let mut sample = time(3, (0, 0));
    sample.num_stationary = (4, 0);
    assert_eq!(refusal(&sample), (14, 0));
    let told = "index out of bounds: the len is 4 but the index is 4";
    assert_eq!(panic_of(&sample), told);
}

#[test]
fn refusal_14_crossed_bounds_come_first() {
    let mut sample = time(3, (1, 2));
    (sample.start.maximum, sample.start.minimum) = (1.0, 2.0);
    assert_eq!(refusal(&sample), (14, 0));
    if !cfg!(debug_assertions) {
        let stopped = published(&sample.problem());
        assert!(matches!(stopped, Err(CoppError::Infeasible(..))));
    }
}

/// copp's problem builder stops at what its assembly takes.
#[test]
fn refusal_14_the_builder_wants_more() {
    let sample = time(2, (1, 0));
    assert!(!builder_lets_by(3, (1, 0)));
    assert_eq!(refusal(&sample), (0, 0));
    assert_same(&run(&sample), &judge(&sample.problem()).unwrap());
}

#[test]
fn refusal_16_any_row_count_is_assembled() {
    let mut sample = time(2, (0, 0));
    sample.rows[0][1] = 257;
    for table in 3..=5 {
        *sample.table_mut(table) = vec![1.0; 257];
    }
    assert_eq!(refusal(&sample), (16, 1));
    assert_eq!(run(&sample).rows, 19 + 257);
}

#[test]
fn refusal_17_a_bound_that_is_none_makes_no_row() {
    for amax in [f64::NAN, f64::NEG_INFINITY] {
        let mut sample = time(2, (0, 0));
        sample.table_mut(2)[1] = amax;
        assert_eq!(refusal(&sample), (17, 3));
        assert_eq!(run(&sample).rows, 19);
    }
    let mut sample = time(2, (1, 0));
    let rows = run(&sample).rows;
    sample.start.maximum = f64::NAN;
    assert_eq!(refusal(&sample), (17, 0));
    assert_eq!(run(&sample).rows, rows);
}

#[test]
fn refusal_17_a_minimum_that_is_none_reaches_the_right_side() {
    for minimum in [f64::NAN, f64::INFINITY, f64::NEG_INFINITY] {
        let mut sample = time(2, (1, 0));
        sample.start.minimum = minimum;
        sample.start.maximum = f64::INFINITY;
        assert_eq!(refusal(&sample), (17, 0));
        assert!(!finite(&run(&sample).b));
        let mut sample = time(2, (0, 1));
        sample.end.minimum = minimum;
        assert_eq!(refusal(&sample), (17, 1));
        assert!(!finite(&run(&sample).b));
    }
}

#[test]
fn refusal_20_overflow_is_handed_to_the_solver() {
    let mut close = with_jerk_row(time(2, (0, 0)), 0);
    close.grid = vec![0.0, 5e-324, 1.0];
    assert_eq!(refusal(&close), (20, 0));
    assert!(run(&close).val.contains(&f64::INFINITY));
    let cost = Sample::plain(2, (0, 0), 1).with_linear(f64::MAX, &[2.0; 3], &[0.0; 3]);
    assert_eq!(refusal(&cost), (20, 0));
    assert!(!finite(&run(&cost).q));
}

/// The Rust multiplies NaN of station 0 by the scale and writes it nowhere.
#[test]
fn unwritten_torque_coefficients_are_scaled() {
    let mut sample = Sample::plain(3, (1, 0), 1)
        .with_thermal(1.0, &[2.0])
        .with_variation(1.0, &[3.0]);
    sample.table_mut(11)[0] = f64::NAN;
    assert_eq!(refusal(&sample), (0, 0));
    assert!(finite(&run(&sample).val));
    assert_same(&run(&sample), &judge(&sample.problem()).unwrap());
}

/// Table 10 is the caller's; copp's own weights of this grid are others.
#[test]
fn thermal_weights_are_lent() {
    let mut sample = Sample::plain(3, (1, 0), 1).with_thermal(1.0, &[1.0]);
    *sample.table_mut(10) = vec![7.0, 8.0, 9.0, 10.0];
    assert_eq!(thermal_weights(&sample.grid, (1, 0)), [3.0, 0.5, 1.0, 0.0]);
    assert_eq!(
        judge(&sample.problem()).unwrap().q_object[10..],
        [7.0, 32.0, 36.0]
    );
    let own = thermal_weights(&sample.grid, (1, 0));
    *sample.table_mut(10) = own;
    assert_eq!(
        judge(&sample.problem()).unwrap().q_object[10..],
        [3.0, 2.0, 4.0]
    );
}

/// Tables 14 and 15 are the caller's; the Rust takes `cbrt` of 1/2 itself.
#[test]
fn cube_roots_are_lent() {
    let mut sample = Sample::plain(3, (2, 0), 1).with_linear(1.0, &[0.0, 1.0, 0.0, 0.0], &[0.0; 4]);
    *sample.table_mut(14) = vec![2.0];
    assert_eq!(judge(&sample.problem()).unwrap().q_object[2], 0.5 * 2.0);
    assert_eq!(run(&sample).q[2], 0.5 * 0.5f64.cbrt());
    own_roots(&mut sample);
    assert_same(&run(&sample), &judge(&sample.problem()).unwrap());
}

/// Torque goes from 0 to 2 on the first step with all a = 1 and b = 0, yet t = 0 meets both rows.
#[test]
fn kept_torque_variation_has_its_right_sides_swapped() {
    let mut sample = Sample::plain(2, (0, 0), 1).with_variation(1.0, &[1.0]);
    *sample.table_mut(11) = vec![0.0, 1.0, 1.0];
    *sample.table_mut(13) = vec![0.0, 1.0, 1.0];
    let given = run(&sample);
    assert_eq!(refusal(&sample), (0, 0));
    // Columns: a 0 to 2, b 3 to 5, t of the two steps 6 and 7; the first step's rows are 11 and 12.
    let z = [1.0, 1.0, 1.0, 0.0, 0.0, 0.0, 0.0, 0.0];
    for row in [11, 12] {
        let entries = (0..given.row.len()).filter(|&i| given.row[i] == row);
        let left: f64 = entries.map(|i| given.val[i] * z[given.col[i]]).sum();
        assert!(left <= given.b[row]);
    }
}

/// Only station 2 lies in the stationary end, but station 1 is charged, and for a second time.
#[test]
fn kept_linear_walks_the_first_stations_at_the_end() {
    let mut true_station =
        Sample::plain(3, (0, 2), 1).with_linear(1.0, &[0.0, 0.0, 1.0, 0.0], &[0.0; 4]);
    *true_station.table_mut(15) = vec![1.0];
    assert_eq!(refusal(&true_station), (0, 0));
    assert_eq!(run(&true_station).q, [0.0; 8]);
    let mut first_station =
        Sample::plain(3, (0, 2), 1).with_linear(1.0, &[0.0, 1.0, 0.0, 0.0], &[0.0; 4]);
    *first_station.table_mut(15) = vec![1.0];
    assert_eq!(refusal(&first_station), (0, 0));
    assert_eq!(run(&first_station).q[1], 2.0);
}
