//! The lent trail: one slice, cut into as many equal parts as there are vans.

use std::ops::Range;

use crate::slips;

/// The words of one van's part. Words left over at the end belong to nobody.
pub fn part(length: usize, vans: usize, van: usize) -> Range<usize> {
    let mut each = length / vans;
    if slips::on(slips::PARTS_OF_WHOLE_RECORDS) {
        each -= each % 2;
    }
    van * each..(van + 1) * each
}

/// Records that each part has room for.
pub fn room(length: usize, vans: usize) -> u64 {
    (length / vans / 2) as u64
}

/// Words that serve any steps from a fresh fleet: each part holds the first van's bound.
pub fn ample(n: usize, vans: usize) -> usize {
    2 * vans * (n + 1) * (n - 2)
}
