//! Cases of stepping back: along trails that steps left, along trails that fit though nobody
//! wrote them, and along spoiled ones.

use super::probes::{reached, runnable};
use super::{fleets, parts, trails};
use crate::fleet::Fleet;
use crate::probe::{Case, STEP};
use crate::rng::Rng;
use crate::sheet::Sheet;
use crate::undo::MUST;

/// Along a trail that steps left, spoiled in half of the cases.
pub fn along_steps(rng: &mut Rng) -> Case {
    let (bytes, sheet) = runnable(rng);
    let (mut fleet, trail) = reached(rng, &sheet);
    if rng.one_in(2) {
        let records: Vec<u64> = fleet.vans.iter().map(|state| state.records).collect();
        fleets::put_levels(rng, &sheet, &mut fleet, &records);
    }
    let mut kept = parts::cut(&trail, sheet.v());
    let each = kept[0].len();
    if rng.one_in(2) {
        spoil_one(rng, &sheet, &fleet, &mut kept);
    }
    let trail = parts::join(rng, &kept, each);
    Case { question: STEP, words: [7, rng.any(), rng.any()], fleet, bytes, trail }
}

/// With a made-up fleet and records that fit it.
pub fn made_up(rng: &mut Rng) -> Case {
    let (bytes, sheet) = runnable(rng);
    let mut fleet = fleets::made_up(rng, &sheet);
    let count = 1 + rng.below(10);
    let mut kept = trails::fitting(rng, &sheet, &fleet, count);
    let astray = rng.one_in(3);
    if astray {
        must_astray(rng, sheet.n(), &mut fleet, &mut kept);
    }
    let records: Vec<u64> = kept.iter().map(|words| words.len() as u64 / 2).collect();
    fleets::put_levels(rng, &sheet, &mut fleet, &records);
    if !astray && rng.one_in(2) {
        spoil_one(rng, &sheet, &fleet, &mut kept);
    }
    let each = 2 * fleets::most_records(&fleet) as usize + rng.below(4);
    let trail = parts::join(rng, &kept, each);
    Case { question: STEP, words: [7 + 256 * rng.below(9) as u64, 0, 0], fleet, bytes, trail }
}

/// A record of kind 4 behind the newest of any van, mostly of a ward that has the mark.
fn must_astray(rng: &mut Rng, n: usize, fleet: &mut Fleet, kept: &mut [Vec<u64>]) {
    let x = 1 + rng.below((n - 2).max(1));
    if n > 2 && !rng.one_in(4) {
        fleet.must |= 1 << x;
    }
    let second = u64::from(rng.one_in(4));
    kept[rng.below(kept.len())].extend([256 * MUST + x as u64, second]);
}

/// A record of one van is spoiled, one that stepping back meets if there is any.
fn spoil_one(rng: &mut Rng, sheet: &Sheet, fleet: &Fleet, kept: &mut [Vec<u64>]) {
    let floor = |van: usize| match fleet.vans[van].level_count as usize {
        0 => 0,
        levels => 2 * fleet.vans[van].levels[levels - 1] as usize,
    };
    let used = |van: usize| 2 * fleet.vans[van].records as usize;
    let met: Vec<usize> = (0..sheet.v()).filter(|&van| used(van) > floor(van)).collect();
    if !met.is_empty() {
        let van = *rng.pick(&met);
        trails::spoil(rng, sheet.n(), &mut kept[van][floor(van)..used(van)]);
    }
}
