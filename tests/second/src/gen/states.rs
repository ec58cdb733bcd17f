//! One van's state: made up but in form, its levels, and broken in one place.

use super::steps;
use crate::rng::Rng;
use crate::state::{bit, State};

/// Any state in form along this route; `free` are the wards that may have places.
pub fn made_up(rng: &mut Rng, path: &[usize], free: &[usize]) -> State {
    let mut state = State::zero();
    state.put_path(path);
    let often = rng.below(5);
    for &x in free {
        for &leg in &path[..path.len() - 1] {
            if rng.below(4) < often {
                state.sets[x] |= 1 << leg;
            }
        }
    }
    state
}

/// Record count and `levels` level counts for a made-up state.
pub fn put_levels(rng: &mut Rng, state: &mut State, records: u64, levels: u64) {
    state.records = records;
    state.level_count = levels;
    state.levels = [0; 64];
    let used = levels as usize;
    // In half of the states low, so that many records stand above the last level.
    let most = if rng.one_in(2) { records } else { rng.any() % (records + 1) };
    for level in state.levels[..used].iter_mut() {
        *level = rng.any() % (most + 1);
    }
    state.levels[..used].sort();
}

/// Breaks the form (or, rarely, does not) at one place.
pub fn break_one(rng: &mut Rng, n: usize, state: &mut State) {
    let stops = (state.stops as usize).clamp(1, 64);
    match rng.below(22) {
        0 => state.route[rng.below(stops)] = rng.below(n + 2) as u64,
        14 => state.route[rng.below(stops)] = n as u64,
        // A stop with an open place, and a place on a leg that is not there.
        15 => state.sets[state.route[rng.below(stops)] as usize % 64] |= 1,
        16 => state.sets[1 + rng.below(n - 1)] |= 1 << rng.below(n),
        17 => state.levels[(state.level_count as usize).min(63)] = state.records.min(1),
        1 => state.route[rng.below(64)] = steps::odd(rng),
        2 => state.stops = wrong_stops(rng, state.stops),
        3 => state.sets[rng.below(64)] |= 1 << rng.below(64),
        4 => state.sets[rng.below(n)] |= 1 << (n - 1),
        5 => state.sets[0] |= 1,
        6 => state.sets[n - 1] |= 1,
        7 => state.marks |= 1 << *rng.pick(&[0, n - 1, 63]),
        8 => state.level_count = *rng.pick(&[65, 64, state.level_count.wrapping_add(1), 1 << 32, u64::MAX]),
        9 => state.levels[rng.below(64)] = steps::odd(rng),
        10 => swap_levels(rng, state),
        11 => state.records = state.records.saturating_sub(1 + rng.below(3) as u64),
        12 => state.route.swap(rng.below(stops), stops - 1),
        18 | 19 => doubled_stop(rng, state),
        20 | 21 => other_start(rng, n, state),
        _ => *state = State::zero(),
    }
}

/// The same ward twice on the route, and nothing else wrong. Only of a state in form, as below.
fn doubled_stop(rng: &mut Rng, state: &mut State) {
    let mut path = state.path();
    if path.len() > 2 && path.len() < 64 {
        let twice = path[1 + rng.below(path.len() - 2)];
        path.insert(1 + rng.below(path.len() - 1), twice);
        state.put_path(&path);
    }
}

/// A ward stands where the start should be, and no place names a leg that is not there.
fn other_start(rng: &mut Rng, n: usize, state: &mut State) {
    let free: Vec<usize> = (1..n - 1).filter(|&x| !state.on_route(x)).collect();
    if !free.is_empty() {
        let x = *rng.pick(&free);
        state.route[0] = x as u64;
        state.sets[x] = 0;
        for set in state.sets.iter_mut() {
            *set &= !1;
        }
    }
}

fn wrong_stops(rng: &mut Rng, stops: u64) -> u64 {
    *rng.pick(&[0, 1, stops.wrapping_add(1), stops.wrapping_sub(1), 64, 65, 1 << 32, u64::MAX])
}

fn swap_levels(rng: &mut Rng, state: &mut State) {
    let used = (state.level_count as usize).min(64);
    if used >= 2 {
        state.levels.swap(rng.below(used), rng.below(used));
    }
}

/// The legs of the route as a set.
pub fn legs(path: &[usize]) -> u64 {
    path[..path.len() - 1].iter().fold(0, |set, &v| set | 1 << v)
}

/// A random part of a set.
pub fn part(rng: &mut Rng, set: u64) -> u64 {
    (0..64).filter(|&i| bit(set, i) && rng.one_in(2)).fold(0, |s, i| s | 1 << i)
}
