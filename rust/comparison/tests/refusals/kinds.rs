//! 40, of the C interface: an unknown kind among the records that count, the lowest such index,
//! judged before refusal 1. Records from the count on are not looked at.

use crate::changes::*;
use crate::row::{ACCEPTED, Row, refused, rows};

pub fn rows() -> Vec<Row> {
    rows! {
        [kind(0, 4)] gives refused(40, 0);
        [kind(1, 4)] gives refused(40, 1);
        [kind(2, 255)] gives refused(40, 2);
        [kind(3, u64::MAX)] gives refused(40, 3);
        // known kinds in the lowest 8 and 32 bits
        [kind(3, 0x100)] gives refused(40, 3);
        [kind(3, 0x1_0000_0000)] gives refused(40, 3);
        [kind(3, 5), kind(1, 4)] gives refused(40, 1);
        // past the count, and the last that counts
        [kind(4, 4)] gives ACCEPTED;
        [kind(15, u64::MAX)] gives ACCEPTED;
        [kind(4, 4), count(5)] gives refused(40, 4);
        [kind(15, 4), count(15), slots_from(4, time(1.0))] gives ACCEPTED;
        [kind(15, 4), count(16), slots_from(4, time(1.0))] gives refused(40, 15);
        // of more than sixteen the sixteen are looked at, of none none
        [kind(15, 4), count(17)] gives refused(40, 15);
        [kind(0, 4), count(LARGEST)] gives refused(40, 0);
        [kind(0, 4), count(0)] gives refused(9, 0);
        // before 1, and before 11 of an earlier one
        [kind(2, 4), boundary(NAN, 1.0, 1.0, -1.0)] gives refused(40, 2);
        [kind(2, 4), grid([])] gives refused(40, 2);
        [kind(2, 4), objective(0, time(NAN))] gives refused(40, 2);
        [kind(2, 4), dimension(0)] gives refused(40, 2);
        [kind(4, 4), boundary(NAN, 1.0, 1.0, -1.0)] gives refused(1, 0);
    }
}
