//! Doors that are shut too early: nodes whose service is longer than their window. A ward like
//! that is struck from every van and leaves the rest alive; at the start or the end it makes every
//! route dead, so there it is rare.

use super::draft::Draft;
use crate::rng::Rng;

/// Shuts some doors of a sheet, or in most sheets none.
pub fn shut_some(rng: &mut Rng, draft: &mut Draft) {
    let end = draft.n() - 1;
    if rng.one_in(30) {
        still(draft);
        let node = rng.below(end + 1);
        before_its_service(rng, draft, node);
    }
    if end > 1 && rng.one_in(5) {
        let ward = 1 + rng.below(end - 1);
        before_its_service(rng, draft, ward);
    }
    if end > 1 && rng.one_in(5) {
        let ward = 1 + rng.below(end - 1);
        within_its_service(rng, draft, ward);
    }
    match rng.below(60) {
        0 => before_its_service(rng, draft, 0),
        1 | 2 => within_its_service(rng, draft, 0),
        3 => before_its_service(rng, draft, end),
        4 => within_its_service(rng, draft, end),
        5 | 6 => as_the_van_comes_home(rng, draft),
        _ => {}
    }
}

/// A service that takes some time: mostly as it was, if it did; now and then the longest there is.
fn serve(rng: &mut Rng, draft: &mut Draft, node: usize) -> u32 {
    let service = &mut draft.nodes[node][2];
    if rng.one_in(12) {
        *service = 1_000_000;
    } else if *service == 0 {
        *service = rng.between(1, 9) as u32;
    }
    *service
}

/// The last moment is negative: whoever starts there at once is too late.
pub fn before_its_service(rng: &mut Rng, draft: &mut Draft, node: usize) {
    let service = serve(rng, draft, node);
    let any = 1 + rng.below(service as usize) as u32;
    let short = *rng.pick(&[1, 1, service, any]);
    draft.nodes[node][0] = 0;
    draft.nodes[node][1] = service - short;
}

/// The last moment is before the earliest one, but not negative.
pub fn within_its_service(rng: &mut Rng, draft: &mut Draft, node: usize) {
    let service = serve(rng, draft, node);
    let earliest = draft.nodes[node][0].clamp(1, 1_000_000 - service + 1);
    let short = 1 + rng.below(service.min(earliest) as usize) as u32;
    draft.nodes[node][0] = earliest;
    draft.nodes[node][1] = earliest + service - short;
}

/// The end is reached in time by the straight way, but what is done there is not over in time.
fn as_the_van_comes_home(rng: &mut Rng, draft: &mut Draft) {
    let end = draft.n() - 1;
    let service = serve(rng, draft, end);
    let arrival = draft.nodes[0][0] + draft.nodes[0][2] + draft.seconds[end];
    let home = arrival.max(draft.nodes[end][0]);
    draft.nodes[end][1] = (home + rng.below(service as usize) as u32).min(1_000_000);
}

/// No way and no service takes time and nobody waits, so every start is 0: only there does a last
/// moment below 0 differ from one at 0.
pub fn still(draft: &mut Draft) {
    draft.seconds.fill(0);
    for node in draft.nodes.iter_mut() {
        node[0] = 0;
        node[2] = 0;
    }
}
