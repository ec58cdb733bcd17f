//! Loads and capacities that go together: no job is above the largest capacity (6). What is worth
//! trying lies at that edge: a job that just rides, in one van alone, beside vans that take less
//! or nothing.

use super::draft::Draft;
use crate::rng::Rng;

pub fn heaviest(jobs: &[[u32; 4]]) -> u32 {
    jobs.iter().map(|job| job[3]).max().unwrap_or(0)
}

pub fn largest(draft: &Draft) -> u32 {
    draft.limits.iter().map(|van| van[0]).max().unwrap_or(0)
}

/// Sees to it that every job rides in some van; in a share of the sheets the heaviest just does.
pub fn ride(rng: &mut Rng, draft: &mut Draft) {
    if rng.one_in(4) {
        return just_ride(rng, draft);
    }
    if heaviest(&draft.jobs) <= largest(draft) {
        return;
    }
    if largest(draft) == 0 || rng.one_in(3) {
        cut(draft);
    } else {
        let van = rng.below(draft.v());
        raise(draft, van);
    }
}

/// The heaviest job just fits one van, and no other. Without jobs nothing changes.
pub fn just_ride(rng: &mut Rng, draft: &mut Draft) {
    let load = heaviest(&draft.jobs);
    if load == 0 {
        return;
    }
    let strong = rng.below(draft.v());
    for (van, limits) in draft.limits.iter_mut().enumerate() {
        limits[0] = if van == strong { load } else { rng.below(load as usize) as u32 };
    }
}

/// Gives a van this capacity. If no van is left for the heaviest job, another one gets it, or
/// loads are cut down. A lone van with jobs keeps a capacity of 1, as no load is below that.
pub fn bend(rng: &mut Rng, draft: &mut Draft, van: usize, capacity: i64) {
    let alone = draft.v() == 1;
    let least = i64::from(alone && !draft.jobs.is_empty());
    draft.limits[van][0] = capacity.clamp(least, 1000) as u32;
    if heaviest(&draft.jobs) <= largest(draft) {
        return;
    }
    if !alone && (largest(draft) == 0 || rng.one_in(2)) {
        let other = (van + 1 + rng.below(draft.v() - 1)) % draft.v();
        raise(draft, other);
    } else {
        cut(draft);
    }
}

fn raise(draft: &mut Draft, van: usize) {
    draft.limits[van][0] = heaviest(&draft.jobs);
}

/// No load above the largest capacity; where nothing can be carried there are no jobs.
fn cut(draft: &mut Draft) {
    let most = largest(draft);
    if most == 0 {
        draft.jobs.clear();
    }
    for job in draft.jobs.iter_mut() {
        job[3] = job[3].min(most);
    }
}
