//! What the tests of settling ask of one van and its route: its limits, and E, L, H and the
//! metres, by position.

use crate::sheet::Sheet;
use crate::slips;
use crate::state::State;

pub struct Facts {
    pub capacity: i64,
    pub limit: i64,
    /// Clean before soiled.
    pub profile: bool,
    pub path: Vec<usize>,
    /// Start time at each stop.
    pub e: Vec<i64>,
    /// Last start at each stop that leaves it and the rest in time; may be below 0.
    pub l: Vec<i64>,
    /// Load aboard on the leg that leaves each stop but the last.
    pub h: Vec<i64>,
    pub metres: i64,
}

impl Facts {
    pub fn of(sheet: &Sheet, van: usize, state: &State) -> Facts {
        let path = state.path();
        Facts {
            capacity: sheet.van(van).capacity,
            limit: sheet.van(van).limit,
            profile: under_profile(sheet, van),
            e: starts(sheet, &path),
            l: last_starts(sheet, &path),
            h: (0..path.len() - 1).map(|leg| aboard(sheet, &path, leg)).collect(),
            metres: path.windows(2).map(|w| sheet.metres(w[0], w[1])).sum(),
            path,
        }
    }

    pub fn position(&self, node: usize) -> Option<usize> {
        self.path.iter().position(|&v| v == node)
    }

    pub fn last_leg(&self) -> usize {
        self.path.len() - 2
    }
}

/// The sheet's number is for every van.
fn under_profile(sheet: &Sheet, van: usize) -> bool {
    let spared = slips::on(slips::PROFILE_OF_THE_FIRST_VAN_ONLY) && van > 0;
    (sheet.profile && !spared) || slips::on(slips::PROFILE_ASKED_OF_EVERY_SHEET)
}

pub fn starts(sheet: &Sheet, path: &[usize]) -> Vec<i64> {
    let mut e = vec![sheet.nodes[path[0]].earliest];
    for i in 1..path.len() {
        let (before, here) = (path[i - 1], path[i]);
        let arrival = e[i - 1] + sheet.nodes[before].service + sheet.seconds(before, here);
        e.push(arrival.max(sheet.nodes[here].earliest));
    }
    e
}

pub fn last_starts(sheet: &Sheet, path: &[usize]) -> Vec<i64> {
    let last = path.len() - 1;
    let mut l = vec![0; path.len()];
    l[last] = sheet.last_moment(path[last]);
    for i in (0..last).rev() {
        let (here, next) = (path[i], path[i + 1]);
        let by_next = l[i + 1] - sheet.nodes[here].service - sheet.seconds(here, next);
        l[i] = by_next.min(sheet.last_moment(here));
        if slips::on(slips::L_UNSIGNED) && by_next < 0 {
            l[i] = sheet.last_moment(here);
        }
        if slips::on(slips::L_TAKES_SERVICE_OFF_THE_NEXT_ONLY) {
            l[i] = by_next.min(sheet.nodes[here].latest);
        }
    }
    l
}

/// H of one leg. A transfer with one node off the route, or in wrong order, counts 0.
fn aboard(sheet: &Sheet, path: &[usize], leg: usize) -> i64 {
    let position = |node: usize| path.iter().position(|&v| v == node);
    let mut sum = 0;
    for job in &sheet.jobs {
        let on = match (job.kind, position(job.a), position(job.b)) {
            (1, Some(a), _) => leg < a,
            (2, Some(a), _) => leg >= a,
            (3, Some(a), Some(b)) => a <= leg && leg < b,
            _ => false,
        };
        if on {
            sum += job.load;
        }
    }
    sum
}
