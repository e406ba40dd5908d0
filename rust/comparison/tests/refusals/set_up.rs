//! 8 to 13, "whoever sets up the job".

use crate::changes::*;
use crate::row::{ACCEPTED, Row, refused, rows};

pub fn rows() -> Vec<Row> {
    [
        dimensions(),
        number_of_objectives(),
        weights(),
        lists(),
        scales(),
    ]
    .into_iter()
    .flatten()
    .collect()
}

/// "8 d is outside 1 to 32."
fn dimensions() -> Vec<Row> {
    rows! {
        [dimension(0)] gives refused(8, 0);
        [torques(1)] gives ACCEPTED;
        [torques(32)] gives ACCEPTED;
        [torques(33)] gives refused(8, 0);
        [dimension(33)] gives refused(8, 0);
        [dimension(LARGEST)] gives refused(8, 0);
        // 2 more than a multiple of 2^32
        [dimension(0x1_0000_0002)] gives refused(8, 0);
        // the scales' lists are of another length
        [dimension(1)] gives refused(12, 0);
        [dimension(32)] gives refused(12, 0);
        // without a torque objective d is judged all the same, and nothing else goes by it
        [times(), dimension(32)] gives ACCEPTED;
        [times(), dimension(33)] gives refused(8, 0);
        [times(), dimension(0)] gives refused(8, 0);
        // before 9, 10 and 11
        [dimension(33), count(0)] gives refused(8, 0);
        [dimension(0), count(17)] gives refused(8, 0);
        [dimension(0), objective(0, time(NAN))] gives refused(8, 0);
    }
}

/// "9 no objective. 10 more than 16."
fn number_of_objectives() -> Vec<Row> {
    rows! {
        [count(0)] gives refused(9, 0);
        [count(1)] gives ACCEPTED;
        [slots_from(4, time(1.0)), count(16)] gives ACCEPTED;
        [slots_from(4, time(1.0)), count(17)] gives refused(10, 0);
        [count(17)] gives refused(10, 0);
        [count(LARGEST)] gives refused(10, 0);
        // 4 more than a multiple of 2^32
        [count(0x1_0000_0004)] gives refused(10, 0);
        // slots past the count
        [count(16)] gives refused(11, 4);
        [count(5)] gives refused(11, 4);
        [objective(4, thermal(NAN, LARGEST, LARGEST))] gives ACCEPTED;
        [objective(15, linear(-1.0, 0, 0, 0, 0))] gives ACCEPTED;
        [count(3), objective(3, time(-1.0))] gives ACCEPTED;
        // before 11, 12 and 14
        [count(0), objective(0, time(NAN))] gives refused(9, 0);
        [count(0), stationary(9, 9)] gives refused(9, 0);
        [count(17), objective(0, time(NAN))] gives refused(10, 0);
        [count(17), objective(0, thermal(1.0, 0, 3))] gives refused(10, 0);
        [count(LARGEST), stationary(9, 9)] gives refused(10, 0);
    }
}

/// "Then per objective, in order, place its index: 11 weight NaN, infinite or negative"
fn weights() -> Vec<Row> {
    rows! {
        [objective(0, thermal(NAN, 0, 2))] gives refused(11, 0);
        [objective(0, thermal(INFINITY, 0, 2))] gives refused(11, 0);
        [objective(0, thermal(-TINY, 0, 2))] gives refused(11, 0);
        [objective(0, thermal(-0.0, 0, 2))] gives ACCEPTED;
        [objective(1, torque(NAN, 2, 2))] gives refused(11, 1);
        [objective(1, torque(INFINITY, 2, 2))] gives refused(11, 1);
        [objective(1, torque(-1.0, 2, 2))] gives refused(11, 1);
        [objective(1, torque(-TINY, 2, 2))] gives refused(11, 1);
        [objective(1, torque(0.0, 2, 2))] gives ACCEPTED;
        [objective(1, torque(-0.0, 2, 2))] gives ACCEPTED;
        [objective(1, torque(HUGE, 2, 2))] gives ACCEPTED;
        [objective(2, linear(NAN, 4, 8, 12, 8))] gives refused(11, 2);
        [objective(2, linear(MINUS_INFINITY, 4, 8, 12, 8))] gives refused(11, 2);
        [objective(2, linear(-TINY, 4, 8, 12, 8))] gives refused(11, 2);
        [objective(2, linear(-0.0, 4, 8, 12, 8))] gives ACCEPTED;
        [objective(3, time(NAN))] gives refused(11, 3);
        [objective(3, time(INFINITY))] gives refused(11, 3);
        [objective(3, time(-TINY))] gives refused(11, 3);
        [objective(3, time(-0.0))] gives ACCEPTED;
        [objective(3, time(TINY))] gives ACCEPTED;
        // finite, but not times station 5's weight of 9.5
        [objective(3, time(HUGE))] gives refused(20, 0);
        [slots_from(4, time(1.0)), count(16), objective(15, time(-1.0))] gives refused(11, 15);
        // of two the first; before 12 of the same one and of a later one, after 12 and 13 of an earlier one
        [objective(1, torque(NAN, 2, 2)), objective(3, time(NAN))] gives refused(11, 1);
        [objective(1, torque(NAN, 2, 3))] gives refused(11, 1);
        [objective(2, linear(-1.0, 4, 7, 12, 8))] gives refused(11, 2);
        [objective(1, torque(NAN, 2, 2)), objective(2, linear(1.0, 4, 7, 12, 8))] gives refused(11, 1);
        [objective(0, thermal(1.0, 0, 3)), objective(1, torque(NAN, 2, 2))] gives refused(12, 0);
        [pooled(1, -1.0), objective(1, torque(NAN, 2, 2))] gives refused(13, 0);
        [pooled(2, -1.0), objective(1, torque(NAN, 2, 2))] gives refused(11, 1);
    }
}

/// "12 a list is not d long (scales) or n+1 long (alpha, beta), or runs past the pool"
fn lists() -> Vec<Row> {
    rows! {
        [objective(0, thermal(1.0, 0, 0))] gives refused(12, 0);
        [objective(0, thermal(1.0, 0, 1))] gives refused(12, 0);
        [objective(0, thermal(1.0, 0, 3))] gives refused(12, 0);
        [objective(0, thermal(1.0, 18, 2))] gives ACCEPTED;
        [objective(0, thermal(1.0, 19, 2))] gives refused(12, 0);
        [objective(0, thermal(1.0, 20, 2))] gives refused(12, 0);
        [objective(0, thermal(1.0, LARGEST, 2))] gives refused(12, 0);
        [objective(0, thermal(1.0, LARGEST - 1, 2))] gives refused(12, 0);
        [objective(0, thermal(1.0, LARGEST - 2, 2))] gives refused(12, 0);
        [objective(0, thermal(1.0, 0, LARGEST))] gives refused(12, 0);
        [objective(0, thermal(1.0, 2, 0x1_0000_0002))] gives refused(12, 0);
        [objective(1, torque(1.0, 0, 1))] gives refused(12, 1);
        [objective(1, torque(1.0, 0, 3))] gives refused(12, 1);
        [objective(1, torque(1.0, 18, 2))] gives ACCEPTED;
        [objective(1, torque(1.0, 19, 2))] gives refused(12, 1);
        [objective(1, torque(1.0, LARGEST - 1, 2))] gives refused(12, 1);
        [objective(1, torque(1.0, 0x1_0000_0002, 2))] gives refused(12, 1);
        [objective(2, linear(1.0, 4, 7, 12, 8))] gives refused(12, 2);
        [objective(2, linear(1.0, 4, 9, 12, 8))] gives refused(12, 2);
        [objective(2, linear(1.0, 4, 8, 12, 7))] gives refused(12, 2);
        [objective(2, linear(1.0, 4, 8, 11, 9))] gives refused(12, 2);
        [objective(2, linear(1.0, 12, 8, 0, 8))] gives ACCEPTED;
        [objective(2, linear(1.0, 4, 8, 4, 8))] gives ACCEPTED;
        [objective(2, linear(1.0, 13, 8, 0, 8))] gives refused(12, 2);
        [objective(2, linear(1.0, 0, 8, 13, 8))] gives refused(12, 2);
        [objective(2, linear(1.0, LARGEST, 8, 0, 8))] gives refused(12, 2);
        [objective(2, linear(1.0, LARGEST - 7, 8, 0, 8))] gives refused(12, 2);
        [objective(2, linear(1.0, 0, 8, LARGEST, 8))] gives refused(12, 2);
        [objective(2, linear(1.0, 0, 8, LARGEST - 7, 8))] gives refused(12, 2);
        [objective(2, linear(1.0, 0, 8, 0, LARGEST))] gives refused(12, 2);
        // before 13 of the same one, after 13 of an earlier one
        [pooled(19, -1.0), objective(0, thermal(1.0, 19, 2))] gives refused(12, 0);
        [pooled(0, -1.0), objective(0, thermal(1.0, 0, 3))] gives refused(12, 0);
        [pooled(0, -1.0), objective(1, torque(1.0, 0, 3))] gives refused(13, 0);
        [pooled(2, -1.0), objective(2, linear(1.0, 4, 7, 12, 8))] gives refused(13, 1);
        [objective(0, thermal(1.0, 0, 1)), pooled(2, -1.0)] gives refused(12, 0);
    }
}

/// "13 a scale is NaN, infinite or negative"; alpha and beta are not scales
fn scales() -> Vec<Row> {
    rows! {
        [pooled(0, NAN)] gives refused(13, 0);
        [pooled(1, INFINITY)] gives refused(13, 0);
        [pooled(1, -TINY)] gives refused(13, 0);
        [pooled(2, MINUS_INFINITY)] gives refused(13, 1);
        [pooled(3, -TINY)] gives refused(13, 1);
        [pooled(3, NAN)] gives refused(13, 1);
        [pooled(1, NAN), pooled(2, NAN)] gives refused(13, 0);
        [pooled(0, -0.0), pooled(1, 0.0), pooled(2, HUGE), pooled(3, -0.0)] gives ACCEPTED;
        // alpha and beta of stations 3 and 7, the last of which nothing reads
        [pooled(7, -1.0), pooled(11, NAN), pooled(15, -TINY), pooled(19, INFINITY)] gives ACCEPTED;
        // before 14, as are 11 and 12
        [pooled(3, -1.0), stationary(4, 3)] gives refused(13, 1);
        [objective(3, time(NAN)), stationary(4, 3)] gives refused(11, 3);
        [objective(2, linear(1.0, 4, 7, 12, 8)), stationary(4, 3)] gives refused(12, 2);
    }
}
