//! Brute force: every round of a small state, and the rules a round keeps, straight from 01 and,
//! for the door and the profile, 02.

use crate::sheet::Sheet;
use crate::state::State;

pub type Round = Vec<usize>;

/// Every list of distinct nodes from 0 to n−1.
pub fn all_rounds(n: usize) -> Vec<Round> {
    let mut found = vec![];
    let mut inner = vec![];
    grow(n, &mut inner, &mut found);
    found
}

fn grow(n: usize, inner: &mut Vec<usize>, found: &mut Vec<Round>) {
    let mut round = vec![0];
    round.extend(inner.iter());
    round.push(n - 1);
    found.push(round);
    for x in 1..n - 1 {
        if !inner.contains(&x) {
            inner.push(x);
            grow(n, inner, found);
            inner.pop();
        }
    }
}

pub fn rounds_of(n: usize, state: &State) -> Vec<Round> {
    all_rounds(n).into_iter().filter(|round| belongs(n, state, round)).collect()
}

pub fn belongs(n: usize, state: &State, round: &[usize]) -> bool {
    let path = state.path();
    let met: Vec<usize> = round.iter().copied().filter(|v| path.contains(v)).collect();
    if met != path {
        return false;
    }
    let others_open =
        round.iter().all(|&x| path.contains(&x) || state.is_open(x, stop_before(&path, round, x)));
    let required_in = (0..n).all(|x| !state.is_marked(x) || round.contains(&x));
    others_open && required_in
}

/// The last stop of the route before x in the round.
pub fn stop_before(path: &[usize], round: &[usize], x: usize) -> usize {
    let mut last = 0;
    for &v in round {
        if v == x {
            return last;
        }
        if path.contains(&v) {
            last = v;
        }
    }
    last
}

pub fn uses_place(path: &[usize], round: &[usize], p: usize, x: usize) -> bool {
    round.contains(&x) && stop_before(path, round, x) == p
}

/// The rules, with the limits of one van.
pub fn keeps_rules(sheet: &Sheet, van: usize, round: &[usize]) -> bool {
    in_time(sheet, round)
        && in_metres(sheet, van, round)
        && whole_transfers(sheet, round)
        && in_load(sheet, van, round)
        && (!sheet.profile || clean_first(sheet, round))
}

/// No start above the last moment, first and last stop included.
pub fn in_time(sheet: &Sheet, round: &[usize]) -> bool {
    let mut time = sheet.nodes[0].earliest;
    for (i, &here) in round.iter().enumerate() {
        if i > 0 {
            let before = round[i - 1];
            time += sheet.nodes[before].service + sheet.seconds(before, here);
            if time < sheet.nodes[here].earliest {
                time = sheet.nodes[here].earliest;
            }
        }
        if time > sheet.last_moment(here) {
            return false;
        }
    }
    true
}

pub fn in_metres(sheet: &Sheet, van: usize, round: &[usize]) -> bool {
    let mut sum = 0;
    for i in 1..round.len() {
        sum += sheet.metres(round[i - 1], round[i]);
    }
    sum <= sheet.van(van).limit
}

pub fn whole_transfers(sheet: &Sheet, round: &[usize]) -> bool {
    let at = |x: usize| round.iter().position(|&v| v == x);
    sheet.jobs.iter().filter(|job| job.kind == 3).all(|job| match (at(job.a), at(job.b)) {
        (Some(a), Some(b)) => a < b,
        (None, None) => true,
        _ => false,
    })
}

/// Once a stop with a soiled job is left, no stop with a clean job is met.
pub fn clean_first(sheet: &Sheet, round: &[usize]) -> bool {
    let has = |kind: i64, here: usize| sheet.jobs.iter().any(|job| job.kind == kind && job.a == here);
    let mut soiled = false;
    for &here in round {
        if soiled && has(1, here) {
            return false;
        }
        soiled |= has(2, here);
    }
    true
}

/// Walks the round with a tally of what is aboard; half transfers are not taken along.
pub fn in_load(sheet: &Sheet, van: usize, round: &[usize]) -> bool {
    let is_in = |x: usize| round.contains(&x);
    let mut aboard = 0;
    for job in &sheet.jobs {
        if job.kind == 1 && is_in(job.a) {
            aboard += job.load;
        }
    }
    for (i, &here) in round.iter().enumerate() {
        for job in &sheet.jobs {
            match job.kind {
                1 if job.a == here => aboard -= job.load,
                2 if job.a == here => aboard += job.load,
                3 if job.a == here && is_in(job.b) => aboard += job.load,
                3 if job.b == here && is_in(job.a) => aboard -= job.load,
                _ => {}
            }
        }
        if i + 1 < round.len() && aboard > sheet.van(van).capacity {
            return false;
        }
    }
    true
}
