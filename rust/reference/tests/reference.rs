//! The reference alone: document 01's ledger, case A's numbers, the traps, and
//! a few problems worked out by hand.

use reference::copp3_socp::clarabel_objective_capacity_copp3;
use reference::counts::{by_formula, check_facts, entry_bound};
use reference::formulation::get_weight_a_topp3;
use reference::objectives::CoppObjective;
use reference::owners::Asked::{Column, Row};
use reference::owners::owner_of;
use reference::sample::{Sample, ledger, ledger_line};
use reference::{Assembled, Problem, Refusal, Reserve, copp3_socp_core, judge, size};
use reference::{assemble, refusals};

/// With room in every buffer.
fn with_room(problem: &Problem) -> Result<Assembled, Refusal> {
    assemble(problem, &[usize::MAX; 7], usize::MAX)
}

fn refused<T>(answer: Result<T, Refusal>) -> (u64, u64) {
    let Err(refusal) = answer else {
        panic!("accepted");
    };
    (refusal.number, refusal.place)
}

#[test]
fn ledger_lines() {
    for (sample, line) in ledger() {
        let name = &line[..1];
        assert_eq!(ledger_line(name, size(&sample.problem())), line);
    }
}

#[test]
fn ledger_facts() {
    for (sample, line) in ledger() {
        if let Ok(assembled) = judge(&sample.problem()) {
            check_facts(&sample.problem(), &assembled).expect(line);
        }
    }
}

#[test]
fn case_a_in_full() {
    let (sample, _) = ledger().remove(0);
    let out = assemble(&sample.problem(), &[32, 32, 32, 19, 6, 6, 8], 24).unwrap();
    assert_eq!(out.cones.kinds, [0, 1, 1, 2, 1, 2]);
    assert_eq!(out.cones.dims, [6, 5, 1, 3, 1, 3]);
    assert_eq!(out.q_object, [0.0, 0.0, 0.0, 0.0, 0.0, 0.0, 0.0, 1.0]);
    let rows = [
        0, 1, 2, 3, 4, 5, 4, 5, 4, 5, 4, 5, 6, 7, 7, 8, 8, 8, 9, 9, 10, 10, 10, 11, 12, 13, 14, 15,
        16, 16, 17, 17,
    ];
    let columns = [
        0, 2, 3, 5, 0, 1, 1, 2, 3, 4, 4, 5, 1, 0, 3, 0, 3, 4, 1, 4, 1, 4, 5, 6, 1, 1, 6, 7, 6, 7,
        6, 7,
    ];
    assert_eq!(out.row, rows);
    assert_eq!(out.col, columns);
    assert_eq!(out.b[12..15], [0.25, -0.25, 0.0]);
    assert_eq!(out.b[16..19], [0.0, 0.0, 2.0]);
    let index = [
        [0, 0, 0, 6, 23, 11, 2, 0],
        [23, 11, 2, 6, 4, 4, 2, 1],
        [27, 15, 4, 7, 5, 4, 2, 1],
    ];
    assert_eq!(out.index, index.concat());
}

#[test]
fn owners_of_case_a() {
    let index = judge(&ledger()[0].0.problem()).unwrap().index;
    for (row, owner) in [(0, 0), (10, 0), (11, 1), (14, 1), (15, 2), (18, 2)] {
        assert_eq!(owner_of(Row, &index, 1, row), Ok(owner));
    }
    assert_eq!(owner_of(Column, &index, 1, 6), Ok(1));
    assert_eq!(owner_of(Column, &index, 1, 7), Ok(2));
    for column in [0, 5, 8, usize::MAX] {
        assert_eq!(refused(owner_of(Column, &index, 1, column)), (29, 0));
    }
    for row in [19, 20, usize::MAX] {
        assert_eq!(refused(owner_of(Row, &index, 1, row)), (29, 0));
    }
    // With the numbers of two owners only, row 15 has none; with more there are too few places.
    assert_eq!(refused(owner_of(Row, &index, 0, 15)), (29, 0));
    assert_eq!(refused(owner_of(Row, &index[..23], 1, 0)), (28, 0));
    for objectives in [2, 1 << 61, (1 << 61) - 2, usize::MAX - 1, usize::MAX] {
        assert_eq!(refused(owner_of(Row, &index, objectives, 0)), (28, 0));
    }
}

#[test]
fn owners_without_a_part() {
    let sample = Sample::plain(2, (0, 0), 1)
        .with_linear(1.0, &[0.0; 3], &[0.0; 3])
        .with_variation(1.0, &[1.0]);
    let out = judge(&sample.problem()).unwrap();
    check_facts(&sample.problem(), &out).unwrap();
    let none = [23, 11, 2, 6, 0, 0, 0, 0];
    assert_eq!(out.index[8..16], none);
    assert_eq!(out.index[16..24], none);
    assert_eq!(out.index[24..], [23, 11, 2, 6, 20, 4, 1, 2]);
    assert_eq!(owner_of(Row, &out.index, 2, 11), Ok(3));
    assert_eq!(owner_of(Column, &out.index, 2, 6), Ok(3));
}

#[test]
fn owners_of_an_index_that_nothing_wrote() {
    // Rows 5 to 14 of owner 0 and 10 to 2^65 - 2 of owner 1; columns of owner 1 alone, from 2^64 - 1.
    let top = u64::MAX;
    let index = [0, 5, 0, 0, 0, 10, 0, 0, 0, 10, 0, top, 0, top, 0, 1, 7];
    assert_eq!(owner_of(Row, &index, 0, 5), Ok(0));
    assert_eq!(owner_of(Row, &index, 0, 14), Ok(0));
    assert_eq!(owner_of(Row, &index, 0, 15), Ok(1));
    assert_eq!(owner_of(Row, &index, 0, usize::MAX), Ok(1));
    assert_eq!(refused(owner_of(Row, &index, 0, 4)), (29, 0));
    assert_eq!(owner_of(Column, &index, 0, usize::MAX), Ok(1));
    assert_eq!(
        refused(owner_of(Column, &index, 0, usize::MAX - 1)),
        (29, 0)
    );
}

#[test]
fn capacities_change_nothing() {
    for (sample, _) in ledger() {
        let problem = sample.problem();
        if judge(&problem).is_err() {
            continue;
        }
        let plain = copp3_socp_core(&problem, Reserve::Nothing).unwrap();
        let reserved = copp3_socp_core(&problem, Reserve::AsPublished).unwrap();
        assert_eq!(plain.row, reserved.row);
        assert_eq!(plain.col, reserved.col);
        assert_eq!(plain.val, reserved.val);
        assert_eq!(plain.counts(), reserved.counts());
        assert_eq!(plain.index, reserved.index);
    }
}

#[test]
fn trap_column_figure_omits_xi() {
    let sample = Sample::plain(3, (0, 0), 1).with_time(1.0);
    let objectives = [CoppObjective::Time(1.0)];
    assert_eq!(clarabel_objective_capacity_copp3(3, &objectives, 1).3, 11);
    assert_eq!(size(&sample.problem()).unwrap().columns, 12);
}

#[test]
fn trap_one_root_stage() {
    let once = Sample::plain(5, (2, 1), 1).with_time(1.0);
    let twice = once.clone().with_time(2.0).with_thermal(1.0, &[1.0]);
    let (once, twice) = (size(&once.problem()), size(&twice.problem()));
    // L = 3, p = 2, d = 1: a Time is 15 entries, a ThermalEnergy 6 * 5.
    assert_eq!(twice.unwrap().entries - once.unwrap().entries, 15 + 30);
}

#[test]
fn trap_thermal_cost_at_the_ends() {
    let mut sample = Sample::plain(4, (1, 1), 1).with_thermal(3.0, &[2.0]);
    *sample.table_mut(10) = vec![7.0, 1.0, 1.5, 2.0, 11.0];
    *sample.table_mut(13) = vec![0.5, 1.0, 2.0, 4.0, 8.0];
    let out = with_room(&sample.problem()).unwrap();
    // xi columns 10 to 12, then start, end and stations 1 to 3.
    assert_eq!(
        out.q_object[10..],
        [0.0, 0.0, 0.0, 21.0, 33.0, 12.0, 18.0, 24.0]
    );
    // Each cone's torque row: -(g + g at the end) at the ends, -g elsewhere.
    let torque: Vec<f64> = out.b[out.b.len() - 15..].chunks(3).map(|c| c[2]).collect();
    assert_eq!(torque, [-3.0, -24.0, -2.0, -4.0, -8.0]);
}

#[test]
fn trap_last_row_of_a_time_cone() {
    let out = with_room(&ledger()[0].0.problem()).unwrap();
    assert_eq!(out.b[18], 2.0);
    assert!(!out.row.contains(&18));
}

#[test]
fn time_weights() {
    let s = [0.0, 1.0, 3.0, 6.0, 10.0];
    assert_eq!(get_weight_a_topp3(&s, (0, 0)), [0.0, 1.5, 2.5, 3.5, 0.0]);
    // 0.5 * (5*1 + 3 - 0) and 0.5 * (60 - 30 - 3)
    assert_eq!(get_weight_a_topp3(&s, (1, 1)), [0.0, 4.0, 2.5, 13.5, 0.0]);
    assert_eq!(get_weight_a_topp3(&s, (2, 1)), [0.0, 0.0, 10.5, 13.5, 0.0]);
    assert_eq!(get_weight_a_topp3(&s, (0, 3)), [0.0, 27.5, 0.0, 0.0, 0.0]);
}

#[test]
fn jerk_rows_of_the_middle_station() {
    let mut sample = Sample::plain(2, (0, 0), 1).with_time(1.0);
    sample.grid = vec![0.0, 2.0, 2.5];
    sample.rows[1] = vec![0, 1, 0];
    for (number, value) in [(6, 3.0), (7, 5.0), (8, 8.0), (9, 9.0)] {
        *sample.table_mut(number) = vec![value];
    }
    let out = with_room(&sample.problem()).unwrap();
    // Behind 4 boundary, 8 dynamic, 1 lower bound and 10 interval entries.
    assert_eq!(out.val[23..29], [3.0, -4.0, 9.0, 3.0, -11.0, 16.0]);
    assert_eq!(out.col[23..29], [1, 3, 4, 1, 4, 5]);
    assert_eq!(out.b[11..13], [9.0, 9.0]);
}

#[test]
fn linear_cost_at_the_stationary_ends() {
    let alpha = [100.0, 2.0, 4.0, 8.0, 16.0, 32.0, 1000.0];
    let beta = [100.0, 3.0, 6.0, 12.0, 24.0, 48.0, 1000.0];
    let mut sample = Sample::plain(6, (2, 2), 1).with_linear(2.0, &alpha, &beta);
    *sample.table_mut(14) = vec![0.75];
    *sample.table_mut(15) = vec![1.25];
    let q = with_room(&sample.problem()).unwrap().q_object;
    // Start: gamma 1/2 at station 1. End: station 1 again, gamma (1-6)/(4-6).
    let start = 2.0 * 0.5 * 0.75 * (2.0 + 3.0 / 1.5);
    let end = 2.0 * 2.5 * 1.25 * (2.0 + 3.0 / -7.5);
    assert_eq!(q[..7], [0.0, 0.0, start + 8.0, 16.0, end + 32.0, 0.0, 0.0]);
    assert_eq!(q[7..], [0.0, 0.0, 12.0, 24.0, 48.0, 0.0, 0.0]);
}

#[test]
fn minus_zero_is_the_floats() {
    let mut sample = Sample::plain(3, (1, 0), 1).with_thermal(1.0, &[1.0]);
    sample.boundary.a.0 = -0.0;
    let out = with_room(&sample.problem()).unwrap();
    assert_eq!(out.b[0].to_bits(), (-0.0f64).to_bits());
    // The lower row of the start: right side is the negated minimum, +0.
    let lower = out.cones.dims[0] as usize;
    assert_eq!(out.b[lower].to_bits(), (-0.0f64).to_bits());
}

#[test]
fn coinciding_stations_are_refused_and_close_ones_judged_by_their_rows() {
    let mut sample = Sample::plain(2, (0, 0), 1).with_time(1.0);
    sample.grid = vec![0.0, f64::MIN_POSITIVE / 1024.0, 1.0];
    assert!(with_room(&sample.problem()).is_ok());
    sample.rows[1] = vec![1, 0, 0];
    for number in 6..=9 {
        *sample.table_mut(number) = vec![1.0];
    }
    assert!(size(&sample.problem()).is_ok());
    assert_eq!(refused(with_room(&sample.problem())), (20, 0));
}

#[test]
fn order_of_refusals() {
    let bad = || {
        let mut sample = Sample::plain(3, (2, 1), 33).with_time(-1.0);
        sample.grid[2] = f64::NAN;
        sample.rows[0].pop();
        sample
    };
    let mut sample = bad();
    assert_eq!(refused(size(&sample.problem())), (6, 2));
    sample.grid[2] = 1.0;
    assert_eq!(refused(size(&sample.problem())), (7, 2));
    sample.grid[2] = 2.0;
    assert_eq!(refused(size(&sample.problem())), (8, 0));
    sample.d = 32;
    assert_eq!(refused(size(&sample.problem())), (11, 0));
    sample.objectives[0] = reference::Objective::Time(-0.0);
    assert_eq!(refused(size(&sample.problem())), (14, 0));
    sample.num_stationary = (usize::MAX, 2);
    assert_eq!(refused(size(&sample.problem())), (14, 0));
    sample.num_stationary = (1, 1);
    assert_eq!(refused(size(&sample.problem())), (15, 0));
    sample.rows[0].push(257);
    sample.table_mut(2).pop();
    assert_eq!(refused(size(&sample.problem())), (16, 3));
    sample.rows[0][3] = 0;
    assert_eq!(refused(size(&sample.problem())), (15, 2));
    sample.table_mut(2).push(f64::NAN);
    sample.end.minimum = f64::INFINITY;
    assert_eq!(refused(size(&sample.problem())), (17, 1));
    sample.end.minimum = 2.0;
    sample.end.maximum = 1.0;
    assert_eq!(refused(size(&sample.problem())), (18, 1));
    sample.end.maximum = 2.0;
    assert!(size(&sample.problem()).is_ok());
    assert_eq!(refused(assemble(&sample.problem(), &[0; 7], 0)), (19, 0));
}

/// 19 before 28, and 28 before 20.
#[test]
fn order_of_buffers_index_and_numbers() {
    let sample = Sample::plain(2, (0, 0), 1).with_linear(f64::MAX, &[2.0; 3], &[0.0; 3]);
    let problem = sample.problem();
    let exact = [23, 23, 23, 11, 2, 2, 6];
    let mut short = exact;
    short[6] -= 1;
    assert!(size(&problem).is_ok());
    assert_eq!(refused(assemble(&problem, &short, 23)), (19, 6));
    assert_eq!(refused(assemble(&problem, &exact, 23)), (28, 0));
    assert_eq!(refused(assemble(&problem, &exact, 0)), (28, 0));
    assert_eq!(refused(assemble(&problem, &exact, 24)), (20, 0));
    assert!(refusals::short_index(usize::MAX, usize::MAX).is_err());
}

#[test]
fn bound_holds_with_every_objective() {
    let sample = Sample::plain(9, (3, 2), 2)
        .with_time(1.0)
        .with_thermal(1.0, &[1.0, 2.0])
        .with_variation(1.0, &[1.0, 2.0])
        .with_linear(1.0, &[1.0; 10], &[1.0; 10]);
    let problem = sample.problem();
    check_facts(&problem, &judge(&problem).unwrap()).unwrap();
    assert!(by_formula(&problem).entries <= entry_bound(&problem));
}
