//! What a run must have met of doors that are shut too early.

use crate::facts::starts;
use crate::fleet::Fleet;
use crate::sheet::Sheet;
use crate::state::State;
use crate::tally::Tally;
use crate::verdict::alive;

const NEGATIVE: &str = "door: settling a ward whose last moment is negative";
const SHORT: &str = "door: settling a ward with earliest + service above latest, last moment not negative";
const START: &str = "door: node 0 too late by its service";
const END: &str = "door: node n-1 too late by its service alone";
const ALIVE: &str = "door: alive beside a ward that no van can serve in time";

pub const NAMES: &[&str] = &[NEGATIVE, SHORT, START, END, ALIVE];

/// Of a van that is settled: the wards that are open in it.
pub fn note_settled(tally: &mut Tally, sheet: &Sheet, state: &State) {
    let open: Vec<usize> = (1..sheet.n() - 1).filter(|&x| state.sets[x] != 0).collect();
    if open.iter().any(|&x| sheet.last_moment(x) < 0) {
        tally.add(NEGATIVE);
    }
    if open.iter().any(|&x| too_short(sheet, x) && sheet.last_moment(x) >= 0) {
        tally.add(SHORT);
    }
}

/// Of a fleet whose verdict is asked.
pub fn note_judged(tally: &mut Tally, sheet: &Sheet, fleet: &Fleet) {
    let vans = &fleet.vans[..sheet.v()];
    if too_short(sheet, 0) {
        tally.add(START);
    }
    if vans.iter().any(|state| late_at_the_end_alone(sheet, &state.path())) {
        tally.add(END);
    }
    if (1..sheet.n() - 1).any(|x| too_short(sheet, x)) && alive(sheet, fleet) {
        tally.add(ALIVE);
    }
}

/// Whoever starts there at its earliest is not done when the door is shut.
fn too_short(sheet: &Sheet, node: usize) -> bool {
    let node = &sheet.nodes[node];
    node.earliest + node.service > node.latest
}

/// In time at every stop, if only the last one took no time.
fn late_at_the_end_alone(sheet: &Sheet, path: &[usize]) -> bool {
    let (e, last) = (starts(sheet, path), path.len() - 1);
    let end = &sheet.nodes[path[last]];
    let before = (0..last).all(|i| e[i] <= sheet.last_moment(path[i]));
    before && e[last] <= end.latest && e[last] + end.service > end.latest
}
