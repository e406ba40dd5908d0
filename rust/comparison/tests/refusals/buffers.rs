//! 19, 28 and 20: what the assembly alone refuses, with buffers of just the needed lengths save
//! for those that are one place short.

use crate::changes::*;
use crate::row::{ACCEPTED, Row, refused, rows};

pub fn rows() -> Vec<Row> {
    [
        short_buffers(),
        short_index(),
        not_finite(),
        read_numbers(),
        unread_numbers(),
        overflows(),
    ]
    .into_iter()
    .flatten()
    .collect()
}

/// "19 a buffer is shorter than needed; place of the first"
fn short_buffers() -> Vec<Row> {
    let mut all = rows! {
        [] short [] gives ACCEPTED;
        [] short [0, 1, 2, 3, 4, 5, 6] gives refused(19, 0);
        [slots_from(4, time(1.0)), count(16)] short [5] gives refused(19, 5);
        [stations(65_537)] short [3] gives refused(19, 3);
        // after 18 and 17, before 28 and 20
        [end(1.0, 2.0)] short [0] gives refused(18, 1);
        [amax(4, NAN)] short [6] gives refused(17, 6);
        [] short [6, 7] gives refused(19, 6);
        [] short [0, 7] gives refused(19, 0);
        [number(3, 1, NAN)] short [6] gives refused(19, 6);
        [number(3, 1, NAN)] short [2, 7] gives refused(19, 2);
    };
    for i in 0..7 {
        all.extend(rows! {
            [] short [i] gives refused(19, i);
        });
    }
    for i in 0..6 {
        all.extend(rows! {
            [] short [i + 1, i] gives refused(19, i);
            [] short [6, i] gives refused(19, i);
        });
    }
    all
}

/// "An index buffer too short, by one place or more, is 28, directly after 19"; "eight places for
/// each owner, and there are two owners more than objectives"
fn short_index() -> Vec<Row> {
    rows! {
        [] short [7] gives refused(28, 0);
        [] short [7, 7, 7, 7, 7, 7, 7, 7] gives refused(28, 0);
        [count(1)] short [7] gives refused(28, 0);
        [slots_from(4, time(1.0)), count(16)] short [] gives ACCEPTED;
        [slots_from(4, time(1.0)), count(16)] short [7] gives refused(28, 0);
        // Linear alone: no root stage, no row of its own, and eight places for each all the same
        [objective(0, linear(1.0, 4, 8, 12, 8)), count(1)] short [] gives ACCEPTED;
        [objective(0, linear(1.0, 4, 8, 12, 8)), count(1)] short [7] gives refused(28, 0);
        // after 18, before 20
        [start(1.0, 2.0)] short [7] gives refused(18, 0);
        [number(3, 1, NAN)] short [7] gives refused(28, 0);
        [pooled(7, MINUS_INFINITY)] short [7] gives refused(28, 0);
        // 18 before 20
        [start(1.0, 2.0), number(3, 1, NAN)] gives refused(18, 0);
    }
}

/// "20 a number to be written to values, right side or cost is not finite."
fn not_finite() -> Vec<Row> {
    rows! {
        // values: acceleration a and b of station 3, jerk a, b and c of station 2
        [number(3, 1, NAN)] gives refused(20, 0);
        [number(3, 2, INFINITY)] gives refused(20, 0);
        [number(4, 2, MINUS_INFINITY)] gives refused(20, 0);
        [number(6, 1, NAN)] gives refused(20, 0);
        [number(7, 1, INFINITY)] gives refused(20, 0);
        [number(8, 1, MINUS_INFINITY)] gives refused(20, 0);
        // values: torque a and b of station 2
        [number(11, 5, NAN)] gives refused(20, 0);
        [number(12, 4, INFINITY)] gives refused(20, 0);
        // the right side: acceleration max of station 3, jerk max of station 2, torque g
        [number(5, 1, INFINITY)] gives refused(20, 0);
        [number(5, 2, MINUS_INFINITY)] gives refused(20, 0);
        [number(9, 1, NAN)] gives refused(20, 0);
        [number(13, 6, INFINITY)] gives refused(20, 0);
        // the cost: a thermal weight, an alpha, a beta, a start root, an end root
        [number(10, 3, NAN)] gives refused(20, 0);
        [pooled(7, MINUS_INFINITY)] gives refused(20, 0);
        [pooled(15, NAN)] gives refused(20, 0);
        [number(14, 0, NAN)] gives refused(20, 0);
        [number(15, 0, INFINITY)] gives refused(20, 0);
    }
}

/// What both ends read beside the moving stations: the first and the last are read, no further.
fn read_numbers() -> Vec<Row> {
    rows! {
        // thermal weights of stations 0, N0 to n−N1 and n
        [number(10, 0, NAN)] gives refused(20, 0);
        [number(10, 2, NAN)] gives refused(20, 0);
        [number(10, 5, NAN)] gives refused(20, 0);
        [number(10, 7, NAN)] gives refused(20, 0);
        // torque g of stations 0, N0, n−N1 and n, the last of d = 2
        [number(13, 0, NAN)] gives refused(20, 0);
        [number(13, 4, NAN)] gives refused(20, 0);
        [number(13, 11, NAN)] gives refused(20, 0);
        [number(13, 15, NAN)] gives refused(20, 0);
        // torque a of stations N0 and n−N1
        [number(11, 4, NAN)] gives refused(20, 0);
        [number(11, 11, NAN)] gives refused(20, 0);
        // alpha of stations 1 (both ends' part), N0 and n−N1, beta likewise
        [pooled(5, NAN)] gives refused(20, 0);
        [pooled(6, NAN)] gives refused(20, 0);
        [pooled(9, NAN)] gives refused(20, 0);
        [pooled(13, NAN)] gives refused(20, 0);
        [pooled(14, NAN)] gives refused(20, 0);
        [pooled(17, NAN)] gives refused(20, 0);
        // without an end the first and last station of a moving path
        [stationary(0, 2), table(14, []), pooled(4, NAN)] gives refused(20, 0);
        [stationary(2, 0), table(15, []), pooled(11, NAN)] gives refused(20, 0);
        [stationary(2, 0), table(15, []), number(6, 2, NAN)] gives refused(20, 0);
    }
}

/// "A number of tables 2 to 15, alpha or beta that no row or cost uses is never read"
fn unread_numbers() -> Vec<Row> {
    rows! {
        // acceleration and jerk of stations 0 and 7
        [number(3, 0, NAN), number(4, 3, INFINITY), number(5, 0, NAN)] gives ACCEPTED;
        [number(6, 0, NAN), number(7, 2, NAN), number(8, 0, INFINITY), number(9, 2, MINUS_INFINITY)] gives ACCEPTED;
        // torque of stations 1 and 6, torque a and b of stations 0 and 7
        [number(11, 2, NAN), number(12, 3, NAN), number(13, 2, INFINITY), number(13, 13, NAN)] gives ACCEPTED;
        [number(11, 0, NAN), number(12, 1, NAN), number(11, 15, NAN), number(12, 14, INFINITY)] gives ACCEPTED;
        // thermal weights of stations 1 and 6
        [number(10, 1, NAN), number(10, 6, NAN)] gives ACCEPTED;
        // alpha and beta of stations 0, 6 and 7
        [pooled(4, NAN), pooled(10, INFINITY), pooled(11, NAN)] gives ACCEPTED;
        [pooled(12, NAN), pooled(18, INFINITY), pooled(19, NAN)] gives ACCEPTED;
        // with N0 = 0 thermal weights of the first and last station
        [stationary(0, 2), table(14, []), number(10, 0, NAN)] gives ACCEPTED;
        [stationary(2, 0), table(15, []), number(10, 7, NAN)] gives ACCEPTED;
        // station 1 is in both ends' part until neither has it
        [stationary(1, 2), table(14, []), pooled(13, NAN)] gives refused(20, 0);
        [stationary(2, 1), table(15, []), pooled(13, NAN)] gives refused(20, 0);
        [stationary(2, 1), table(15, []), pooled(4, NAN), pooled(11, NAN)] gives ACCEPTED;
        [stationary(1, 1), all_empty([14, 15]), pooled(4, NAN), pooled(12, NAN)] gives ACCEPTED;
    }
}

/// Finite numbers whose product, sum or reciprocal is not.
fn overflows() -> Vec<Row> {
    rows! {
        // Time's weight of station 5 is 9.5
        [objective(3, time(0.125 * HUGE))] gives refused(20, 0);
        [objective(3, time(0.0625 * HUGE))] gives ACCEPTED;
        // "four times the weight" comes first, then table 10; the ends take the weight itself
        [objective(0, thermal(HUGE, 0, 2)), table(10, [1.0, 1.0, TINY, TINY, TINY, TINY, 1.0, 1.0])] gives refused(20, 0);
        [objective(0, thermal(0.25 * HUGE, 0, 2)), table(10, [1.0, 1.0, TINY, TINY, TINY, TINY, 1.0, 4.0])] gives ACCEPTED;
        [objective(0, thermal(0.5, 0, 2)), table(10, [HUGE, 1.0, TINY, TINY, TINY, TINY, 1.0, HUGE])] gives ACCEPTED;
        // a scale times a coefficient, g + g at an end, a difference of two g
        [pooled(2, HUGE), number(12, 6, 2.0)] gives refused(20, 0);
        [only(thermal(1.0, 0, 2)), number(13, 0, HUGE), number(13, 4, HUGE)] gives refused(20, 0);
        [only(thermal(1.0, 0, 2)), number(13, 0, HUGE), number(13, 4, -HUGE)] gives ACCEPTED;
        [only(torque(1.0, 0, 2)), number(13, 6, HUGE), number(13, 8, -HUGE)] gives refused(20, 0);
        [only(torque(1.0, 0, 2)), table(13, [HUGE; 16])] gives ACCEPTED;
        // −2h of an interval row, and −1.5 times an end's stretch
        [stations(3), station(2, HUGE)] gives refused(20, 0);
        [stations(3), station(2, 0.5 * HUGE)] gives ACCEPTED;
        [station(0, -0.75 * HUGE)] gives refused(20, 0);
        // Linear over a distance so small that beta's part is infinite
        [station(0, -TINY)] gives refused(20, 0);
        // 1/spacing, where a jerk row reads it and where none does
        [station(3, 0.5 + f64::EPSILON)] gives ACCEPTED;
        [stations(3), station(1, TINY)] gives ACCEPTED;
        [stations(3), station(1, TINY), rows_at(1, 0, 1)] gives refused(20, 0);
        [stations(3), station(1, TINY), rows_at(1, 1, 1)] gives refused(20, 0);
        [stations(3), station(1, TINY), rows_at(1, 2, 1)] gives ACCEPTED;
    }
}
