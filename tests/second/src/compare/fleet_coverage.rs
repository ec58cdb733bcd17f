//! What only a fleet can meet: forms broken between vans, refusals that hang on another van,
//! verdicts by the marks.

use crate::fleet::apart;
use crate::probe::{Case, STEP, VERDICT};
use crate::sheet::Sheet;
use crate::state::{self, bit, State};
use crate::step::{step_on, Step};
use crate::tally::Tally;
use crate::trail::room;
use crate::verdict::{owed, van_alive};

const TWO_ROUTES: &str = "form: only a ward on two routes is wrong";
const PLACED_AND_OPEN: &str = "form: only a ward placed in one van and open in another is wrong";
const LEVELS: &str = "form: only unequal levels are wrong";
const MUST: &str = "form: only a mark of the fleet is wrong";
const NO_VAN: &str = "form: only a number in a state that is no van is wrong";
const RECORDS: &str = "form: only one van's records are above the room";
const ROOM: &str = "room: too little in one van only";
const ROOM_ELSEWHERE: &str = "room: placing with too little in another van only";
const OWED_CLOSED: &str = "22 though no place is open there";
const OWED_NO_ROOM: &str = "22 though the room is too little";
const VAN_AND_NODE: &str = "21 though a node is out of range";
const IGNORED: &str = "steps 6, 7 and 8 accepted with a van that is none";
const ON_ANOTHER: [&str; 4] = [
    "on another van's route: step 1 or 2 gives 15",
    "on another van's route: step 3 accepted",
    "on another van's route: step 4 accepted",
    "on a route: step 8 accepted",
];
const VERDICTS: [&str; 3] = [
    "verdict: dead by a mark of the fleet alone",
    "verdict: dead by one van alone",
    "verdict: alive with a mark that one van alone serves",
];

pub const NAMES: &[&str] = &[
    TWO_ROUTES,
    PLACED_AND_OPEN,
    LEVELS,
    MUST,
    NO_VAN,
    RECORDS,
    ROOM,
    ROOM_ELSEWHERE,
    OWED_CLOSED,
    OWED_NO_ROOM,
    VAN_AND_NODE,
    IGNORED,
    ON_ANOTHER[0],
    ON_ANOTHER[1],
    ON_ANOTHER[2],
    ON_ANOTHER[3],
    VERDICTS[0],
    VERDICTS[1],
    VERDICTS[2],
];

/// Of a fleet out of form: counts what is wrong if it is one thing alone.
pub fn note_form(tally: &mut Tally, sheet: &Sheet, case: &Case) {
    let (vans, others) = case.fleet.vans.split_at(sheet.v());
    if !vans.iter().all(|state| state::in_form(sheet, state, None)) {
        return;
    }
    let room = if case.question == STEP { room(case.trail.len(), sheet.v()) } else { u64::MAX };
    let above = vans.iter().filter(|state| state.records > room).count();
    let wrong = [
        (TWO_ROUTES, on_two_routes(vans)),
        (PLACED_AND_OPEN, !on_two_routes(vans) && !apart(sheet, &case.fleet)),
        (LEVELS, vans.iter().any(|state| state.level_count != vans[0].level_count)),
        (MUST, (0..64).any(|x| bit(case.fleet.must, x) && (x == 0 || x + 1 >= sheet.n()))),
        (NO_VAN, others.iter().any(|state| *state != State::zero())),
        (RECORDS, above > 0),
    ];
    let found: Vec<_> = wrong.iter().filter(|one| one.1).collect();
    if found.len() == 1 && (found[0].0 != RECORDS || (above == 1 && vans.len() > 1)) {
        tally.add(found[0].0);
    }
}

fn on_two_routes(vans: &[State]) -> bool {
    let inner = |state: &State| -> Vec<usize> { state.path()[1..state.stops as usize - 1].to_vec() };
    let all: Vec<usize> = vans.iter().flat_map(inner).collect();
    (0..64).any(|x| all.iter().filter(|&&v| v == x).count() > 1)
}

/// Of a step from a fleet in form.
pub fn note_step(tally: &mut Tally, sheet: &Sheet, case: &Case, answer: u64) {
    let step = Step::of(case.words);
    let last = sheet.n() as u64 - 2;
    match answer {
        17 => note_room(tally, sheet, case, &step),
        21 if step.kind <= 2 && (step.first > last || step.second < 1 || step.second > last) => {
            tally.add(VAN_AND_NODE)
        }
        22 => note_owed(tally, sheet, case, &step),
        0 if step.kind >= 6 && step.van >= sheet.v() as u64 => tally.add(IGNORED),
        _ => {}
    }
    let x = if step.kind <= 2 { step.second } else { step.first };
    let on = (0..sheet.v()).find(|&van| x >= 1 && x <= last && case.fleet.vans[van].on_route(x as usize));
    let elsewhere = on.is_some_and(|van| van as u64 != step.van);
    match (step.kind, answer) {
        (1 | 2, 15) if elsewhere => tally.add(ON_ANOTHER[0]),
        (3, 0) if elsewhere => tally.add(ON_ANOTHER[1]),
        (4, 0) if elsewhere => tally.add(ON_ANOTHER[2]),
        (8, 0) if on.is_some() => tally.add(ON_ANOTHER[3]),
        _ => {}
    }
}

/// The same step with room enough, to see whose room was short.
fn note_room(tally: &mut Tally, sheet: &Sheet, case: &Case, step: &Step) {
    let v = sheet.v();
    let room = room(case.trail.len(), v);
    let ample = vec![0; case.trail.len() + 2 * v * sheet.n()];
    let after = step_on(sheet, &case.fleet, &ample, case.words).fleet;
    let short: Vec<usize> = (0..v).filter(|&van| after.vans[van].records > room).collect();
    if v > 1 && short.len() == 1 {
        tally.add(ROOM);
        if step.kind == 1 && short[0] as u64 != step.van {
            tally.add(ROOM_ELSEWHERE);
        }
    }
}

fn note_owed(tally: &mut Tally, sheet: &Sheet, case: &Case, step: &Step) {
    let x = step.second as usize;
    let owing = (0..sheet.v()).filter(|&van| van as u64 != step.van && owed(sheet, &case.fleet.vans[van], x));
    if owing.into_iter().all(|van| case.fleet.vans[van].sets[x] == 0) {
        tally.add(OWED_CLOSED);
    }
    let room = room(case.trail.len(), sheet.v());
    if case.fleet.vans[step.van as usize].records == room {
        tally.add(OWED_NO_ROOM);
    }
}

/// Of a verdict given.
pub fn note_verdict(tally: &mut Tally, sheet: &Sheet, case: &Case) {
    if case.question != VERDICT {
        return;
    }
    let vans = &case.fleet.vans[..sheet.v()];
    let dead = (0..vans.len()).filter(|&van| !van_alive(sheet, van, &vans[van])).count();
    let serving = |x: usize| vans.iter().filter(|state| state.on_route(x) || state.sets[x] != 0).count();
    let marked: Vec<usize> = (0..64).filter(|&x| bit(case.fleet.must, x)).map(serving).collect();
    if dead == 0 && marked.contains(&0) {
        tally.add(VERDICTS[0]);
    }
    if dead == 1 && vans.len() > 1 && !marked.contains(&0) {
        tally.add(VERDICTS[1]);
    }
    if dead == 0 && vans.len() > 1 && marked.contains(&1) && !marked.contains(&0) {
        tally.add(VERDICTS[2]);
    }
}
