//! Fleets: reached by steps, made up but in form, quiet but for one van, and garbage.

use super::{parts, profiles, states, steps};
use crate::fleet::{Fleet, WORDS};
use crate::rng::Rng;
use crate::sheet::Sheet;
use crate::state::State;
use crate::step::step_on;
use crate::trail::ample;

/// From fresh by random steps, with the trail they left (zeros behind each van's records).
pub fn reached(rng: &mut Rng, sheet: &Sheet, count: usize) -> (Fleet, Vec<u64>) {
    let mut fleet = Fleet::fresh(sheet);
    let mut trail = vec![0; ample(sheet.n(), sheet.v())];
    for _ in 0..count {
        let words = steps::pick(rng, sheet, &fleet);
        let out = step_on(sheet, &fleet, &trail, words);
        fleet = out.fleet;
        trail = out.trail;
    }
    (fleet, trail)
}

/// The trail cut down to what the fullest van needs and up to `more` words.
pub fn trimmed(rng: &mut Rng, sheet: &Sheet, fleet: &Fleet, trail: &[u64], more: usize) -> Vec<u64> {
    let each = 2 * most_records(fleet) as usize + rng.below(more);
    parts::join(rng, &parts::cut(trail, sheet.v()), each)
}

pub fn most_records(fleet: &Fleet) -> u64 {
    fleet.vans.iter().map(|state| state.records).max().unwrap_or(0)
}

/// Any fleet in form; nobody need have reached it. At random a route of more than a few wards breaks
/// the profile, so in half of the fleets they are put in order.
pub fn made_up(rng: &mut Rng, sheet: &Sheet) -> Fleet {
    let (n, v) = (sheet.n(), sheet.v());
    let mut inner: Vec<usize> = (1..n - 1).collect();
    rng.shuffle(&mut inner);
    let free = inner.split_off(rng.below(n - 1));
    let mut paths = vec![vec![0]; v];
    for &x in &inner {
        paths[rng.below(v)].push(x);
    }
    let mut fleet = Fleet::zero();
    let ordered = sheet.profile && rng.one_in(2);
    for (van, path) in paths.iter_mut().enumerate() {
        if ordered {
            profiles::put_in_order(sheet, &mut path[1..]);
        }
        path.push(n - 1);
        fleet.vans[van] = states::made_up(rng, path, &free);
        for x in 1..n - 1 {
            // A ward that stands in another van may be required too; then this van is dead.
            let elsewhere = inner.contains(&x) && !path.contains(&x);
            if rng.one_in(if elsewhere { 16 } else { 4 }) {
                fleet.vans[van].marks |= 1 << x;
            }
        }
    }
    put_must(rng, n, &mut fleet);
    fleet
}

/// No marks in half of the fleets, some in the others.
pub fn put_must(rng: &mut Rng, n: usize, fleet: &mut Fleet) {
    fleet.must = 0;
    if rng.one_in(2) {
        fleet.must = (1..n - 1).filter(|_| rng.one_in(4)).fold(0, |set, x| set | 1 << x);
    }
}

/// The same number of levels in every van, each van with its own records.
pub fn put_levels(rng: &mut Rng, sheet: &Sheet, fleet: &mut Fleet, records: &[u64]) {
    let levels = *rng.pick(&[0, 1, 1, 2, 5, 63, 64]);
    for van in 0..sheet.v() {
        states::put_levels(rng, &mut fleet.vans[van], records[van], levels);
    }
}

/// Small record counts, not the same in all vans.
pub fn few_records(rng: &mut Rng, sheet: &Sheet, most: u64) -> Vec<u64> {
    (0..sheet.v()).map(|_| rng.any() % (most + 1)).collect()
}

/// All vans but one idle, with every ward that is left open to them: the one van decides.
pub fn quiet_but(rng: &mut Rng, sheet: &Sheet, fleet: &mut Fleet, kept: usize) {
    let path = fleet.vans[kept].path();
    for van in (0..sheet.v()).filter(|&van| van != kept) {
        fleet.vans[van] = State::all_open(sheet.n());
        for &x in &path {
            fleet.vans[van].sets[x] = 0;
        }
    }
    if rng.one_in(2) {
        fleet.must = 0;
    }
}

/// Every number at random.
pub fn garbage(rng: &mut Rng) -> Fleet {
    let words: Vec<u64> = (0..WORDS)
        .map(|_| match rng.below(3) {
            0 => 0,
            1 => rng.below(64) as u64,
            _ => rng.any(),
        })
        .collect();
    Fleet::from_words(&words)
}
