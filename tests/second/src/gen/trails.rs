//! Trails that nobody wrote but that fit, and trails spoiled at one word.

use super::states::{legs, part};
use crate::fleet::{apart, Fleet};
use crate::rng::Rng;
use crate::sheet::Sheet;
use crate::state::bit;
use crate::undo::{undo_one, MARKED, MUST, PLACED, SMALLER};

/// A record that may fit this van of the fleet as it is; most do.
fn record(rng: &mut Rng, n: usize, fleet: &Fleet, van: usize) -> [u64; 2] {
    let state = &fleet.vans[van];
    let x = 1 + rng.below((n - 2).max(1));
    let path = state.path();
    if van == 0 && bit(fleet.must, x) && rng.one_in(2) {
        return [256 * MUST + x as u64, 0];
    }
    if let Some(at) = path.iter().position(|&v| v == x) {
        if at > 0 && at + 1 < path.len() {
            let left: Vec<usize> = path.iter().copied().filter(|&v| v != x).collect();
            return [256 * PLACED + x as u64, part(rng, legs(&left)) | 1 << path[at - 1]];
        }
    }
    if state.is_marked(x) && rng.one_in(2) {
        return [256 * MARKED + x as u64, 0];
    }
    let more = part(rng, legs(&path)) | 1 << path[rng.below(path.len() - 1)];
    [256 * SMALLER + x as u64, state.sets[x] | more]
}

/// Up to `count` records for each van that undo one after the other, oldest first, as parts of
/// a trail. In most cases the vans share no ward at the end.
pub fn fitting(rng: &mut Rng, sheet: &Sheet, fleet: &Fleet, count: usize) -> Vec<Vec<u64>> {
    let tries = *rng.pick(&[1, 4, 4]);
    let mut parts = vec![];
    for _ in 0..tries {
        let mut now = fleet.clone();
        parts = (0..sheet.v()).map(|van| van_records(rng, sheet, &mut now, van, count)).collect();
        if apart(sheet, &now) {
            break;
        }
    }
    parts
}

fn van_records(rng: &mut Rng, sheet: &Sheet, now: &mut Fleet, van: usize, count: usize) -> Vec<u64> {
    // Vans that were left alone for a while are common, and leave the others' placings whole.
    let wanted = if van > 0 && rng.one_in(3) { 0 } else { 1 + rng.below(count) };
    let mut newest_first = vec![];
    for _ in 0..3 * wanted {
        let found = record(rng, sheet.n(), now, van);
        if newest_first.len() < wanted && undo_one(sheet, now, van, found).is_some() {
            newest_first.push(found);
        }
    }
    newest_first.iter().rev().flatten().copied().collect()
}

/// One record is spoiled: a word a little off or far off, or a rule of fitting broken on purpose.
pub fn spoil(rng: &mut Rng, n: usize, trail: &mut [u64]) {
    if trail.len() < 2 {
        return;
    }
    let at = 2 * rng.below(trail.len() / 2);
    let node = trail[at] % 256;
    match rng.below(12) {
        0 => trail[at] = any_word(rng, trail[at]),
        1 => trail[at + 1] = any_word(rng, trail[at + 1]),
        // The node's own leg, the end's, or any other.
        2 => trail[at + 1] |= 1 << (node % 64),
        3 => trail[at + 1] |= 1 << (n - 1),
        4 => trail[at + 1] |= 1 << rng.below(64),
        // Another number whose low bits are the same.
        5 => trail[at] ^= *rng.pick(&[64, 128, 192, 1 << 16, 1 << 32, 1 << 63]),
        // A marking, of either kind, that may never have been.
        6 | 7 => {
            let kind = *rng.pick(&[MARKED, MUST]);
            (trail[at], trail[at + 1]) = (256 * kind + rng.below(n) as u64, rng.below(8) as u64 / 7);
        }
        // A place that is open now, or the one the ward was placed in, is missing.
        8..=10 => trail[at + 1] = without_one(rng, trail[at + 1]),
        _ => (trail[at], trail[at + 1]) = (256 * rng.below(6) as u64 + node, rng.below(4) as u64),
    }
}

fn without_one(rng: &mut Rng, set: u64) -> u64 {
    let ones: Vec<usize> = (0..64).filter(|&i| bit(set, i)).collect();
    if ones.is_empty() {
        return set;
    }
    set & !(1 << rng.pick(&ones))
}

fn any_word(rng: &mut Rng, word: u64) -> u64 {
    match rng.below(8) {
        0 => word ^ 1 << rng.below(64),
        1 => word.wrapping_add(1),
        2 => word.wrapping_sub(1),
        3 => word.wrapping_add(256),
        4 => word.wrapping_sub(256),
        5 => word & word.wrapping_sub(1),
        6 => 256 * rng.below(6) as u64 + rng.below(66) as u64,
        _ => rng.any(),
    }
}
