//! 1 to 7, "whoever draws the path".

use crate::changes::*;
use crate::row::{ACCEPTED, Row, refused, rows};

pub fn rows() -> Vec<Row> {
    [
        boundary_finite(),
        boundary_sign(),
        boundary_leaves(),
        number_of_stations(),
        grid_finite(),
        grid_rising(),
    ]
    .into_iter()
    .flatten()
    .collect()
}

/// "1 a boundary number is not finite; place 0 to 3 for initial a, terminal a, initial b, terminal b."
fn boundary_finite() -> Vec<Row> {
    rows! {
        [] gives ACCEPTED;
        [boundary(HUGE, HUGE, -HUGE, HUGE)] gives ACCEPTED;
        [boundary(NAN, 1.0, 1.0, -1.0)] gives refused(1, 0);
        [boundary(-NAN, 1.0, 1.0, -1.0)] gives refused(1, 0);
        [boundary(INFINITY, 1.0, 1.0, -1.0)] gives refused(1, 0);
        [boundary(MINUS_INFINITY, 1.0, 1.0, -1.0)] gives refused(1, 0);
        [boundary(1.0, NAN, 1.0, -1.0)] gives refused(1, 1);
        [boundary(1.0, INFINITY, NAN, -1.0)] gives refused(1, 1);
        [boundary(1.0, MINUS_INFINITY, 1.0, NAN)] gives refused(1, 1);
        [boundary(1.0, 1.0, NAN, -1.0)] gives refused(1, 2);
        [boundary(1.0, 1.0, INFINITY, NAN)] gives refused(1, 2);
        [boundary(1.0, 1.0, MINUS_INFINITY, -1.0)] gives refused(1, 2);
        [boundary(1.0, 1.0, 1.0, NAN)] gives refused(1, 3);
        [boundary(1.0, 1.0, 1.0, INFINITY)] gives refused(1, 3);
        [boundary(1.0, 1.0, 1.0, MINUS_INFINITY)] gives refused(1, 3);
        [boundary(NAN, NAN, NAN, NAN)] gives refused(1, 0);
        // before 2, 3, 4 and 5
        [boundary(-1.0, -1.0, 1.0, MINUS_INFINITY)] gives refused(1, 3);
        [boundary(0.0, 1.0, -1.0, NAN)] gives refused(1, 3);
        [boundary(1.0, 1.0, 1.0, NAN), grid([])] gives refused(1, 3);
        [boundary(1.0, 1.0, NAN, 1.0), stations(65_538)] gives refused(1, 2);
    }
}

/// "2 a boundary a is below 0; place 0 or 1." "Minus zero counts as zero here"
fn boundary_sign() -> Vec<Row> {
    rows! {
        [boundary(-TINY, 1.0, 1.0, -1.0)] gives refused(2, 0);
        [boundary(1.0, -TINY, 1.0, -1.0)] gives refused(2, 1);
        [boundary(-HUGE, 1.0, 1.0, -1.0)] gives refused(2, 0);
        [boundary(-1.0, -HUGE, 1.0, -1.0)] gives refused(2, 0);
        [boundary(-0.0, -0.0, 0.0, -0.0)] gives ACCEPTED;
        [boundary(TINY, TINY, -1.0, 1.0)] gives ACCEPTED;
        // before 3 and 4
        [boundary(0.0, -1.0, -1.0, 1.0)] gives refused(2, 1);
        [boundary(-1.0, 0.0, -1.0, 1.0)] gives refused(2, 0);
        [boundary(1.0, -1.0, 1.0, -1.0), grid([0.0, 1.0])] gives refused(2, 1);
    }
}

/// "3 initial a is zero with b below 0 (place 0), or terminal a is zero with b above 0 (place 1)."
fn boundary_leaves() -> Vec<Row> {
    rows! {
        [boundary(0.0, 1.0, -TINY, -1.0)] gives refused(3, 0);
        [boundary(-0.0, 1.0, -1.0, -1.0)] gives refused(3, 0);
        [boundary(0.0, 1.0, -0.0, -1.0)] gives ACCEPTED;
        [boundary(0.0, 1.0, 0.0, -1.0)] gives ACCEPTED;
        [boundary(0.0, 1.0, 1.0, -1.0)] gives ACCEPTED;
        [boundary(TINY, 1.0, -HUGE, -1.0)] gives ACCEPTED;
        [boundary(1.0, 0.0, 1.0, TINY)] gives refused(3, 1);
        [boundary(1.0, -0.0, 1.0, 1.0)] gives refused(3, 1);
        [boundary(1.0, 0.0, 1.0, -0.0)] gives ACCEPTED;
        [boundary(1.0, 0.0, 1.0, 0.0)] gives ACCEPTED;
        [boundary(1.0, 0.0, 1.0, -1.0)] gives ACCEPTED;
        [boundary(1.0, TINY, 1.0, HUGE)] gives ACCEPTED;
        [boundary(0.0, 0.0, -1.0, 1.0)] gives refused(3, 0);
        // before 4 and 5
        [boundary(1.0, 0.0, 1.0, 1.0), grid([])] gives refused(3, 1);
        [boundary(0.0, 1.0, -1.0, 1.0), stations(65_538)] gives refused(3, 0);
    }
}

/// "4 fewer than 3 stations." "Refusal 5 now begins at 65,538 stations." Once 4,097 were the most.
fn number_of_stations() -> Vec<Row> {
    rows! {
        [grid([])] gives refused(4, 0);
        [grid([1.0])] gives refused(4, 0);
        [grid([1.0, 2.0])] gives refused(4, 0);
        [stations(0)] gives refused(4, 0);
        [stations(2)] gives refused(4, 0);
        [stations(3)] gives ACCEPTED;
        // the Linear's lists are too long then
        [grid([1.0, 2.0, 3.0])] gives refused(12, 2);
        [stations(4097)] gives ACCEPTED;
        [stations(4098)] gives ACCEPTED;
        [stations(65_537)] gives ACCEPTED;
        [stations(65_538)] gives refused(5, 0);
        // 2 and 3 more than a multiple of 2^16
        [stations(131_074)] gives refused(5, 0);
        [stations(131_075)] gives refused(5, 0);
        // before 6, 7 and 8
        [grid([NAN, 2.0])] gives refused(4, 0);
        [grid([2.0, 1.0])] gives refused(4, 0);
        [grid([1.0, 2.0]), dimension(0)] gives refused(4, 0);
        [stations(65_538), station(0, NAN)] gives refused(5, 0);
        [stations(65_538), station(65_537, 0.0)] gives refused(5, 0);
        [stations(65_538), dimension(33)] gives refused(5, 0);
    }
}

/// "6 a grid number is not finite; place is the first such station."
fn grid_finite() -> Vec<Row> {
    rows! {
        [station(0, NAN)] gives refused(6, 0);
        [station(0, MINUS_INFINITY)] gives refused(6, 0);
        [station(7, INFINITY)] gives refused(6, 7);
        [station(7, NAN)] gives refused(6, 7);
        [station(3, NAN), station(2, NAN)] gives refused(6, 2);
        [stations(3), station(0, -0.25 * HUGE), station(2, 0.25 * HUGE)] gives ACCEPTED;
        // finite, but 1.5 times the end's stretch is not
        [station(0, -HUGE), station(7, HUGE)] gives refused(20, 0);
        [stations(65_537), station(65_536, INFINITY)] gives refused(6, 65_536);
        // before 7 and 8
        [station(1, -1.0), station(6, NAN)] gives refused(6, 6);
        [station(6, NAN), dimension(0)] gives refused(6, 6);
    }
}

/// "7 a grid number is not above the one before; place is the first such station."
fn grid_rising() -> Vec<Row> {
    rows! {
        [station(1, -1.0)] gives refused(7, 1);
        [station(1, -2.0)] gives refused(7, 1);
        [station(0, -0.0)] gives refused(7, 1);
        [stations(3), station(0, -0.0)] gives ACCEPTED;
        [stations(3), station(1, -0.0)] gives refused(7, 1);
        [stations(3), station(1, TINY)] gives ACCEPTED;
        [stations(3), station(0, -TINY), station(1, -0.0), station(2, TINY)] gives ACCEPTED;
        [station(7, 4.0)] gives refused(7, 7);
        [station(7, 4.0), station(5, 2.0)] gives refused(7, 5);
        [station(2, BELOW_1)] gives ACCEPTED;
        [station(2, 1.0)] gives refused(7, 3);
        [stations(65_537), station(65_536, 65_535.0)] gives refused(7, 65_536);
        // before 8
        [station(7, 4.0), dimension(0)] gives refused(7, 7);
    }
}
