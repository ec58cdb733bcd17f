//! Sheets bent so that a test of settling, or the verdict, is met exactly or missed by one. At
//! random that is rare, and a "not above" taken for a "below" would slip through.

use super::doors;
use super::draft::Draft;
use super::loads;
use super::steps::open_place;
use crate::facts::Facts;
use crate::rng::Rng;
use crate::sheet::Sheet;
use crate::state::State;

/// Everything else as wide as can be, so that one test alone decides.
pub fn loosen(rng: &mut Rng, draft: &mut Draft) {
    for van in draft.limits.iter_mut() {
        [van[0], van[1]] = [1000, 1_000_000];
    }
    for node in draft.nodes.iter_mut() {
        node[1] = 1_000_000;
        if rng.one_in(2) {
            node[0] = 0;
        }
    }
    for job in draft.jobs.iter_mut() {
        job[3] = 1 + job[3] % 9;
    }
}

/// Shuts the door of a node so that this is its last moment, as far as the form allows it.
fn last_moment(draft: &mut Draft, node: usize, value: i64) {
    let [earliest, _, service, _] = draft.nodes[node].map(i64::from);
    draft.nodes[node][1] = (value + service).clamp(earliest, 1_000_000) as u32;
}

/// Bends one number for one open place (or one stop) of a van's state.
pub fn sharpen(rng: &mut Rng, draft: &mut Draft, van: usize, state: &State) {
    let facts = Facts::of(&draft.sheet(), van, state);
    match open_place(rng, state) {
        Some((x, leg)) if !rng.one_in(4) => sharpen_place(rng, draft, van, &facts, x, leg),
        _ => sharpen_route(rng, draft, van, &facts),
    }
}

fn sharpen_place(rng: &mut Rng, draft: &mut Draft, van: usize, facts: &Facts, x: usize, leg: usize) {
    let sheet = draft.sheet();
    let off = rng.between(0, 1);
    let i = facts.position(leg).expect("legs are on the route");
    let (p, k) = (facts.path[i], facts.path[i + 1]);
    let start = (facts.e[i] + sheet.nodes[p].service + sheet.seconds(p, x)).max(sheet.nodes[x].earliest);
    let arrival = start + sheet.nodes[x].service + sheet.seconds(x, k);
    let last = sheet.n() - 1;
    match rng.below(11) {
        0 => last_moment(draft, x, start - off),
        // The end so early that the last starts before it fall below 0.
        8 => {
            draft.nodes[last][0] = 0;
            last_moment(draft, last, rng.between(-5, 20));
        }
        // A last moment below 0, of x or of the stop behind it; with a start of 0 it decides alone.
        9 => {
            if rng.one_in(2) {
                doors::still(draft);
            }
            let node = *rng.pick(&[x, k]);
            doors::before_its_service(rng, draft, node);
        }
        10 => doors::within_its_service(rng, draft, x),
        1 => last_moment(draft, k, arrival - off),
        2 => last_moment(draft, last, arrival + way_on(&sheet, &facts.path, i + 1) - off),
        3 => {
            let total = facts.metres + sheet.metres(p, x) + sheet.metres(x, k) - sheet.metres(p, k);
            draft.limits[van][1] = (total - off).clamp(0, 1_000_000) as u32;
        }
        _ => {
            let load = load_of(rng, &sheet, x);
            let aboard = *rng.pick(&facts.h);
            loads::bend(rng, draft, van, aboard + load - off);
        }
    }
}

/// The load of one of the ward's jobs, 0 if it has none.
fn load_of(rng: &mut Rng, sheet: &Sheet, x: usize) -> i64 {
    let own: Vec<_> = sheet.jobs.iter().filter(|j| j.a == x || j.b == x).collect();
    if own.is_empty() {
        return 0;
    }
    rng.pick(&own).load
}

/// From the start at the stop at `from` to the arrival at the end, if nobody waits.
fn way_on(sheet: &Sheet, path: &[usize], from: usize) -> i64 {
    path[from..].windows(2).map(|w| sheet.nodes[w[0]].service + sheet.seconds(w[0], w[1])).sum()
}

/// The verdict's own edges: a start, the metres, a load.
fn sharpen_route(rng: &mut Rng, draft: &mut Draft, van: usize, facts: &Facts) {
    let off = rng.between(0, 1);
    match rng.below(3) {
        0 => {
            // The ends as often as any stop: they are asked with their service too.
            let last = facts.path.len() - 1;
            let any = rng.below(last + 1);
            let i = *rng.pick(&[0, last, any, any]);
            last_moment(draft, facts.path[i], facts.e[i] - off);
        }
        1 => draft.limits[van][1] = (facts.metres - off).clamp(0, 1_000_000) as u32,
        _ => {
            let aboard = *rng.pick(&facts.h);
            loads::bend(rng, draft, van, aboard - off);
        }
    }
}
