//! 14 to 18, "whoever fills the tables".

use crate::changes::*;
use crate::row::{ACCEPTED, Row, refused, rows};

pub fn rows() -> Vec<Row> {
    [
        stationary_counts(),
        lengths(),
        roots(),
        row_sums(),
        uncounted(),
        row_counts(),
        bounds(),
        unread_bounds(),
        crossed(),
    ]
    .into_iter()
    .flatten()
    .collect()
}

/// "14 N0 + N1 is n or more." Tables 14 and 15 follow the counts.
fn stationary_counts() -> Vec<Row> {
    rows! {
        [stationary(4, 3)] gives refused(14, 0);
        [stationary(7, 0)] gives refused(14, 0);
        [stationary(0, 7)] gives refused(14, 0);
        [stationary(0, 8)] gives refused(14, 0);
        [stationary(LARGEST, 0)] gives refused(14, 0);
        [stationary(0, LARGEST)] gives refused(14, 0);
        // sums of 2^64 and a little more
        [stationary(LARGEST, 1)] gives refused(14, 0);
        [stationary(LARGEST, 2)] gives refused(14, 0);
        [stationary(2, LARGEST)] gives refused(14, 0);
        [stationary(LARGEST, LARGEST)] gives refused(14, 0);
        [stationary(1 << 63, 1 << 63)] gives refused(14, 0);
        [stationary(0x1_0000_0000, 2)] gives refused(14, 0);
        [stationary(4, 2), table(14, [1.0; 3])] gives ACCEPTED;
        [stationary(2, 4), table(15, [1.0; 3])] gives ACCEPTED;
        [stationary(0, 6), table(14, []), table(15, [1.0; 5])] gives ACCEPTED;
        [stationary(6, 0), table(14, [1.0; 5]), table(15, [])] gives ACCEPTED;
        [stations(3), stationary(1, 0)] gives ACCEPTED;
        [stations(3), stationary(0, 1)] gives ACCEPTED;
        [stations(3), stationary(1, 1)] gives refused(14, 0);
        [stations(3), stationary(2, 0)] gives refused(14, 0);
        [stations(65_537), stationary(65_535, 0)] gives ACCEPTED;
        [stations(65_537), stationary(32_768, 32_768)] gives refused(14, 0);
        // before 15, 16, 17 and 18
        [stationary(4, 3), shorter(0)] gives refused(14, 0);
        [stationary(4, 3), row_count(0, 0, 257)] gives refused(14, 0);
        [stationary(4, 3), start(NAN, 1.0)] gives refused(14, 0);
        [stationary(4, 3), start(1.0, 2.0)] gives refused(14, 0);
    }
}

/// "15 a table that counts has a wrong length; place is its number." Each table, and two at once.
fn lengths() -> Vec<Row> {
    let mut all = vec![];
    for t in 0..16 {
        all.extend(rows! {
            [shorter(t)] gives refused(15, t);
            [longer(t)] gives refused(15, t);
        });
    }
    for t in 0..15 {
        all.extend(rows! {
            [shorter(t), longer(t + 1)] gives refused(15, t);
            [longer(t), shorter(15)] gives refused(15, t);
        });
    }
    for t in 2..16 {
        all.extend(rows! {
            [all_empty([t])] gives refused(15, t);
        });
    }
    all
}

/// "14, max(N0,1)−1; 15, max(N1,1)−1"
fn roots() -> Vec<Row> {
    rows! {
        [stationary(0, 2)] gives refused(15, 14);
        [stationary(1, 2)] gives refused(15, 14);
        [stationary(3, 2)] gives refused(15, 14);
        [stationary(0, 2), table(14, [])] gives ACCEPTED;
        [stationary(1, 2), table(14, [])] gives ACCEPTED;
        [stationary(3, 2), table(14, [1.0; 2])] gives ACCEPTED;
        [stationary(2, 0)] gives refused(15, 15);
        [stationary(2, 1)] gives refused(15, 15);
        [stationary(2, 3)] gives refused(15, 15);
        [stationary(2, 0), table(15, [])] gives ACCEPTED;
        [stationary(2, 1), table(15, [])] gives ACCEPTED;
        [stationary(2, 3), table(15, [1.0; 2])] gives ACCEPTED;
    }
}

/// "3 to 5 the sum of table 0; 6 to 9 the sum of table 1", stations outside the moving ones too
fn row_sums() -> Vec<Row> {
    rows! {
        [row_count(0, 0, 2)] gives refused(15, 3);
        [row_count(0, 7, 0)] gives refused(15, 3);
        [row_count(0, 3, 0)] gives refused(15, 3);
        [row_count(0, 0, 0), row_count(0, 7, 2)] gives ACCEPTED;
        [row_count(1, 1, 1)] gives refused(15, 6);
        [row_count(1, 7, 0)] gives refused(15, 6);
        [row_count(1, 0, 0), row_count(1, 3, 1)] gives ACCEPTED;
        [row_count(0, 0, 2), row_count(1, 1, 1)] gives refused(15, 3);
    }
}

/// "A table that doesn't count may have any length."
fn uncounted() -> Vec<Row> {
    rows! {
        [times(), all_longer([10, 11, 12, 13, 14, 15])] gives ACCEPTED;
        [times(), all_empty([10, 11, 12, 13, 14, 15])] gives ACCEPTED;
        [times(), longer(9), longer(10)] gives refused(15, 9);
        [only(thermal(1.0, 0, 2)), all_longer([14, 15])] gives ACCEPTED;
        [only(thermal(1.0, 0, 2)), all_empty([14, 15])] gives ACCEPTED;
        [only(thermal(1.0, 0, 2)), longer(10)] gives refused(15, 10);
        [only(thermal(1.0, 0, 2)), longer(11)] gives refused(15, 11);
        [only(thermal(1.0, 0, 2)), longer(12)] gives refused(15, 12);
        [only(thermal(1.0, 0, 2)), longer(13)] gives refused(15, 13);
        [only(torque(1.0, 0, 2)), all_longer([10, 14, 15])] gives ACCEPTED;
        [only(torque(1.0, 0, 2)), all_empty([10, 14, 15])] gives ACCEPTED;
        [only(torque(1.0, 0, 2)), longer(11)] gives refused(15, 11);
        [only(torque(1.0, 0, 2)), longer(12)] gives refused(15, 12);
        [only(torque(1.0, 0, 2)), longer(13)] gives refused(15, 13);
        [only(linear(1.0, 4, 8, 12, 8)), all_longer([10, 11, 12, 13])] gives ACCEPTED;
        [only(linear(1.0, 4, 8, 12, 8)), all_empty([10, 11, 12, 13])] gives ACCEPTED;
        [only(linear(1.0, 4, 8, 12, 8)), longer(14)] gives refused(15, 14);
        [only(linear(1.0, 4, 8, 12, 8)), longer(15)] gives refused(15, 15);
        // an objective past the count makes no table count
        [times(), objective(4, thermal(1.0, 0, 2)), all_longer([10, 11, 12, 13])] gives ACCEPTED;
        [times(), objective(4, torque(1.0, 0, 2)), all_longer([11, 12, 13])] gives ACCEPTED;
        [times(), objective(4, linear(1.0, 4, 8, 12, 8)), all_longer([14, 15])] gives ACCEPTED;
        // the last that counts does
        [times(), objective(3, thermal(1.0, 0, 2)), longer(10)] gives refused(15, 10);
        [times(), objective(3, torque(1.0, 0, 2)), longer(13)] gives refused(15, 13);
        [times(), objective(3, linear(1.0, 4, 8, 12, 8)), longer(15)] gives refused(15, 15);
    }
}

/// "Tables 0 and 1 are tested first, then refusal 16, then tables 2 to 15."
/// "16 a row count is above 256; place is the station, table 0 before table 1."
fn row_counts() -> Vec<Row> {
    rows! {
        [rows_at(0, 3, 256)] gives ACCEPTED;
        [rows_at(0, 3, 257)] gives refused(16, 3);
        [rows_at(1, 3, 256)] gives ACCEPTED;
        [rows_at(1, 3, 257)] gives refused(16, 3);
        // stations of which no row is made
        [rows_at(0, 0, 256)] gives ACCEPTED;
        [rows_at(0, 0, 257)] gives refused(16, 0);
        [rows_at(1, 7, 256)] gives ACCEPTED;
        [rows_at(1, 7, 257)] gives refused(16, 7);
        [row_count(0, 7, 257)] gives refused(16, 7);
        [row_count(1, 0, 257)] gives refused(16, 0);
        [row_count(0, 2, u32::MAX)] gives refused(16, 2);
        [row_count(1, 2, u32::MAX)] gives refused(16, 2);
        // sums that would wrap in 32 bits
        [row_count(0, 1, u32::MAX), row_count(0, 2, 1)] gives refused(16, 1);
        [row_count(1, 1, 1 << 31), row_count(1, 2, (1 << 31) + 1)] gives refused(16, 1);
        // 256 is left to 15
        [row_count(0, 0, 256)] gives refused(15, 3);
        [row_count(0, 7, 256)] gives refused(15, 3);
        [row_count(1, 0, 256)] gives refused(15, 6);
        [row_count(1, 7, 256)] gives refused(15, 6);
        // the lowest station, within a table
        [row_count(0, 5, 257), row_count(0, 2, 257)] gives refused(16, 2);
        [row_count(1, 5, 257), row_count(1, 2, 257)] gives refused(16, 2);
        [row_count(0, 6, 257), row_count(1, 1, 257)] gives refused(16, 6);
        // after 15 of tables 0 and 1, before 15 of the others and 17
        [row_count(0, 1, 257), shorter(0)] gives refused(15, 0);
        [row_count(0, 1, 257), longer(0)] gives refused(15, 0);
        [row_count(0, 1, 257), shorter(1)] gives refused(15, 1);
        [row_count(1, 1, 257), shorter(0)] gives refused(15, 0);
        [row_count(1, 1, 257), longer(1)] gives refused(15, 1);
        [row_count(1, 1, 257), shorter(2)] gives refused(16, 1);
        [row_count(0, 1, 257), longer(2), shorter(15)] gives refused(16, 1);
        [row_count(0, 3, 257), start(NAN, 1.0)] gives refused(16, 3);
    }
}

/// "17 a bound that is read is NaN or minus infinity, or a stationary minimum is plus infinity;
/// place 0 start, 1 end, 2+k amax of station k."
fn bounds() -> Vec<Row> {
    rows! {
        [start(NAN, 1.0)] gives refused(17, 0);
        [start(MINUS_INFINITY, 1.0)] gives refused(17, 0);
        [start(MINUS_INFINITY, MINUS_INFINITY)] gives refused(17, 0);
        [start(INFINITY, 1.0)] gives ACCEPTED;
        [start(HUGE, -HUGE)] gives ACCEPTED;
        [start(1.0, NAN)] gives refused(17, 0);
        [start(1.0, MINUS_INFINITY)] gives refused(17, 0);
        [start(INFINITY, INFINITY)] gives refused(17, 0);
        [end(NAN, 1.0)] gives refused(17, 1);
        [end(MINUS_INFINITY, 1.0)] gives refused(17, 1);
        [end(INFINITY, -1.0)] gives ACCEPTED;
        [end(HUGE, HUGE)] gives ACCEPTED;
        [end(1.0, NAN)] gives refused(17, 1);
        [end(1.0, MINUS_INFINITY)] gives refused(17, 1);
        [end(INFINITY, INFINITY)] gives refused(17, 1);
        [amax(3, NAN)] gives refused(17, 5);
        [amax(4, NAN)] gives refused(17, 6);
        [amax(3, MINUS_INFINITY)] gives refused(17, 5);
        [amax(4, MINUS_INFINITY)] gives refused(17, 6);
        [amax(3, INFINITY), amax(4, -HUGE)] gives ACCEPTED;
        // the lowest place
        [amax(4, MINUS_INFINITY), amax(3, NAN)] gives refused(17, 5);
        [start(NAN, 1.0), end(NAN, 1.0), amax(3, NAN)] gives refused(17, 0);
        [end(NAN, 1.0), amax(3, NAN)] gives refused(17, 1);
        // after 15, before 18
        [start(NAN, 1.0), shorter(15)] gives refused(15, 15);
        [amax(3, NAN), shorter(2)] gives refused(15, 2);
        [start(1.0, 2.0), end(NAN, 1.0)] gives refused(17, 1);
        [start(1.0, 2.0), amax(4, NAN)] gives refused(17, 6);
    }
}

/// "A bound that is read": amax of stations N0+1 to n−N1−1, an end with a positive count.
fn unread_bounds() -> Vec<Row> {
    rows! {
        [amax(0, NAN), amax(1, MINUS_INFINITY), amax(2, NAN)] gives ACCEPTED;
        [amax(5, MINUS_INFINITY), amax(6, NAN), amax(7, NAN)] gives ACCEPTED;
        [stationary(0, 2), table(14, []), start(NAN, NAN), amax(0, NAN)] gives ACCEPTED;
        [stationary(0, 2), table(14, []), start(MINUS_INFINITY, INFINITY)] gives ACCEPTED;
        [stationary(0, 2), table(14, []), amax(1, NAN)] gives refused(17, 3);
        [stationary(0, 2), table(14, []), start(NAN, NAN), end(NAN, 1.0)] gives refused(17, 1);
        [stationary(2, 0), table(15, []), end(MINUS_INFINITY, INFINITY), amax(7, NAN)] gives ACCEPTED;
        [stationary(2, 0), table(15, []), amax(6, NAN)] gives refused(17, 8);
        [stationary(2, 0), table(15, []), end(NAN, NAN), start(NAN, 1.0)] gives refused(17, 0);
        [stationary(1, 1), all_empty([14, 15]), start(NAN, 1.0)] gives refused(17, 0);
        [stationary(1, 1), all_empty([14, 15]), end(NAN, 1.0)] gives refused(17, 1);
        [stationary(1, 1), all_empty([14, 15]), amax(1, NAN), amax(6, NAN)] gives ACCEPTED;
        [stationary(1, 1), all_empty([14, 15]), amax(2, NAN)] gives refused(17, 4);
        [stations(65_537), amax(65_536, NAN), amax(0, NAN)] gives ACCEPTED;
        [stations(65_537), amax(65_535, NAN)] gives refused(17, 65_537);
    }
}

/// "18 a stationary maximum is below its minimum; place 0 or 1."
fn crossed() -> Vec<Row> {
    rows! {
        [start(1.0, 2.0)] gives refused(18, 0);
        [start(BELOW_1, 1.0)] gives refused(18, 0);
        [start(1.0, 1.0)] gives ACCEPTED;
        [start(-0.0, 0.0)] gives ACCEPTED;
        [start(0.0, -0.0)] gives ACCEPTED;
        [start(-TINY, -0.0)] gives refused(18, 0);
        [end(1.0, 2.0)] gives refused(18, 1);
        [end(BELOW_1, 1.0)] gives refused(18, 1);
        [end(1.0, 1.0)] gives ACCEPTED;
        [end(-0.0, TINY)] gives refused(18, 1);
        [start(1.0, 2.0), end(1.0, 2.0)] gives refused(18, 0);
        // an end with count 0 is not read
        [stationary(0, 2), table(14, []), start(1.0, 2.0)] gives ACCEPTED;
        [stationary(0, 2), table(14, []), start(1.0, 2.0), end(1.0, 2.0)] gives refused(18, 1);
        [stationary(2, 0), table(15, []), end(1.0, 2.0)] gives ACCEPTED;
        [stationary(2, 0), table(15, []), start(1.0, 2.0)] gives refused(18, 0);
        // after 15
        [start(1.0, 2.0), shorter(2)] gives refused(15, 2);
        [end(1.0, 2.0), longer(15)] gives refused(15, 15);
    }
}
