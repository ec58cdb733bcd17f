//! The tests of settling, each as 01, or 02 for the profile, words it. True means: this place is struck.

use crate::facts::Facts;
use crate::profile;
use crate::sheet::{Job, Sheet};
use crate::slips;
use crate::state::State;

/// Place number `i` along the route (after stop i) of the unplaced node x.
pub fn struck(sheet: &Sheet, state: &State, facts: &Facts, x: usize, i: usize) -> bool {
    window(sheet, facts, x, i)
        || metres(sheet, facts, x, i)
        || (facts.profile && profile::strikes(sheet, &facts.path, x, i))
        || sheet.jobs.iter().any(|job| match job.kind {
            1 => job.a == x && too_full(facts, job.load, 0, i),
            2 => job.a == x && too_full(facts, job.load, i, facts.last_leg()),
            _ => (job.a == x || job.b == x) && transfer(state, facts, job, x, i),
        })
}

pub fn window(sheet: &Sheet, facts: &Facts, x: usize, i: usize) -> bool {
    let (p, k) = (facts.path[i], facts.path[i + 1]);
    let arrival = facts.e[i] + sheet.nodes[p].service + sheet.seconds(p, x);
    let start = arrival.max(sheet.nodes[x].earliest);
    let last = if slips::on(slips::WINDOW_ASKS_THE_START_ALONE) {
        sheet.nodes[x].latest
    } else {
        sheet.last_moment(x)
    };
    start > last || start + sheet.nodes[x].service + sheet.seconds(x, k) > facts.l[i + 1]
}

pub fn metres(sheet: &Sheet, facts: &Facts, x: usize, i: usize) -> bool {
    let (p, k) = (facts.path[i], facts.path[i + 1]);
    facts.metres + sheet.metres(p, x) + sheet.metres(x, k) - sheet.metres(p, k) > facts.limit
}

/// Some leg from `first` to `last`, both counted, cannot take the load as well.
fn too_full(facts: &Facts, load: i64, first: usize, last: usize) -> bool {
    (first..=last).any(|leg| facts.h[leg] + load > facts.capacity)
}

pub fn transfer(state: &State, facts: &Facts, job: &Job, x: usize, i: usize) -> bool {
    let x_first = job.a == x;
    let partner = if x_first { job.b } else { job.a };
    match facts.position(partner) {
        Some(at) if x_first => i >= at || too_full(facts, job.load, i, at - 1),
        Some(at) if slips::on(slips::SPLIT_LEG_NOT_COUNTED) => {
            i < at || (i > at && too_full(facts, job.load, at, i - 1))
        }
        Some(at) => i < at || too_full(facts, job.load, at, i),
        None => !supported(state, facts, job, partner, x_first, i),
    }
}

/// The partner has an open place in right order with room on all legs between.
fn supported(state: &State, facts: &Facts, job: &Job, partner: usize, x_first: bool, i: usize) -> bool {
    for j in 0..=facts.last_leg() {
        if !state.is_open(partner, facts.path[j]) {
            continue;
        }
        if j == i && slips::on(slips::SAME_LEG_NO_SUPPORT) {
            continue;
        }
        let (first, second) = if x_first { (i, j) } else { (j, i) };
        if first <= second && !too_full(facts, job.load, first, second) {
            return true;
        }
    }
    false
}
