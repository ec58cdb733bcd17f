//! Owed nodes, the verdict of one van, and the fleet's.

use crate::facts::Facts;
use crate::fleet::Fleet;
use crate::profile;
use crate::sheet::Sheet;
use crate::slips;
use crate::state::{bit, State};

/// An unplaced node that is marked, or whose transfer partner is marked or on the route.
pub fn owed(sheet: &Sheet, state: &State, x: usize) -> bool {
    if state.on_route(x) {
        return false;
    }
    let by_partner = sheet.partner(x).is_some_and(|y| state.is_marked(y) || state.on_route(y));
    state.is_marked(x) || by_partner
}

/// Dead if a van is, or if a ward that must go somewhere is placed or open in none.
pub fn alive(sheet: &Sheet, fleet: &Fleet) -> bool {
    let vans = 0..sheet.v();
    let one_dead = if slips::on(slips::A_DEAD_VAN_LEAVES_THE_FLEET_ALIVE) {
        !van_alive(sheet, 0, &fleet.vans[0])
    } else {
        vans.clone().any(|van| !van_alive(sheet, van, &fleet.vans[van]))
    };
    let served =
        |x: usize| vans.clone().any(|van| fleet.vans[van].on_route(x) || fleet.vans[van].sets[x] != 0);
    let left_behind = (0..64).any(|x| bit(fleet.must, x) && !served(x));
    !one_dead && (!left_behind || slips::on(slips::MUST_IGNORED_IN_THE_VERDICT))
}

pub fn van_alive(sheet: &Sheet, van: usize, state: &State) -> bool {
    let facts = Facts::of(sheet, van, state);
    let stranded = (1..sheet.n() - 1).any(|x| state.sets[x] == 0 && owed(sheet, state, x));
    let far = facts.metres > facts.limit;
    let heavy = facts.h.iter().any(|&load| load > facts.capacity);
    let turned = sheet.jobs.iter().any(|job| {
        let ends = (facts.position(job.a), facts.position(job.b));
        job.kind == 3 && matches!(ends, (Some(a), Some(b)) if a > b)
    });
    let by_class =
        slips::on(slips::VERDICT_READS_CLASSES) && facts.path.iter().any(|&x| !sheet.admits(x, van));
    let by_profile = facts.profile && profile::broken(sheet, &facts.path);
    !(stranded || late(sheet, &facts) || far || heavy || turned || by_class || by_profile)
}

/// E's check: some start of the route is above the last moment there, first and last included.
fn late(sheet: &Sheet, facts: &Facts) -> bool {
    let first = if slips::on(slips::FIRST_STOP_NOT_ASKED) { 1 } else { 0 };
    (first..facts.path.len()).any(|i| {
        let node = facts.path[i];
        if slips::on(slips::END_WITHOUT_ITS_SERVICE) && node == sheet.n() - 1 {
            return facts.e[i] > sheet.nodes[node].latest;
        }
        facts.e[i] > sheet.last_moment(node)
    })
}
