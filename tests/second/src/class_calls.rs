//! What a run must have met of van classes in steps and questions: sheets that 7 refuses, wards named
//! with a van that they do not admit, and fleets that no steps lead to, since a van has such a ward.

use crate::fleet::{handed_in, Fleet};
use crate::probe::{Case, PLACES, STEP, VERDICT};
use crate::refused::Names;
use crate::sheet::Sheet;
use crate::state::bit;
use crate::step::Step;
use crate::tally::Tally;
use crate::verdict::alive;

/// Of steps and questions that 7 refuses.
pub const REFUSED: Names = Names {
    step_alone: "class: 7 for a step that would run otherwise",
    step_form: "class: 7 for a step beside a fleet out of form",
    asked_alone: "class: 7 for a question about a fleet in form",
    asked_form: "class: 7 for a question about a fleet out of form",
};

const PLACING: &str = "class: placing a ward that does not admit the van, 15";
const CLOSING: &str = "class: closing a ward that does not admit the van, 15";
const EXCLUDING: &str = "class: excluding a ward that does not admit the van, accepted";
const REQUIRING: &str = "class: requiring a ward that does not admit the van, accepted";
const MUST: &str = "class: a ward that admits no van must go somewhere, accepted";

/// Of steps from fleets that steps from fresh may lead to.
pub const OF_STEPS: &[&str] = &[PLACING, CLOSING, EXCLUDING, REQUIRING, MUST];

const DEAD_REQUIRED: &str = "class: dead by requiring a ward that does not admit the van";
const DEAD_MUST: &str = "class: dead by a mark of the fleet on a ward that admits no van";
const HANDED_PLACED: &str = "class, handed in: placing a ward that does not admit the van, accepted";
const HANDED_CLOSED: &str = "class, handed in: closing a ward that does not admit the van, accepted";
const HANDED_SETTLED: &str = "class, handed in: settling a van with an open ward that does not admit it";
const HANDED_BACK: &str = "class, handed in: stepping back, accepted";
const HANDED_COUNTED: &str = "class, handed in: open places counted";
const HANDED_ALIVE: &str = "class, handed in: alive with a ward on the route of a van that it does not admit";

/// Of verdicts, and of fleets handed in.
pub const OF_FLEETS: &[&str] = &[
    DEAD_REQUIRED,
    DEAD_MUST,
    HANDED_PLACED,
    HANDED_CLOSED,
    HANDED_SETTLED,
    HANDED_BACK,
    HANDED_COUNTED,
    HANDED_ALIVE,
];

/// Of a call that the sheet and the form let pass.
pub fn note(tally: &mut Tally, sheet: &Sheet, case: &Case, answer: u64) {
    let step = Step::of(case.words);
    match (case.question, handed_in(sheet, &case.fleet)) {
        (STEP, false) => note_step(tally, sheet, &step, answer),
        (STEP, true) if answer == 0 => note_handed(tally, sheet, &case.fleet, &step),
        (VERDICT, false) => note_dead(tally, sheet, &case.fleet),
        (VERDICT, true) if alive(sheet, &case.fleet) && on_a_route(sheet, &case.fleet) => {
            tally.add(HANDED_ALIVE)
        }
        (PLACES, true) => tally.add(HANDED_COUNTED),
        _ => {}
    }
}

/// The ward that a step names, if it names a van and a ward.
fn named(sheet: &Sheet, step: &Step) -> Option<(usize, usize)> {
    let x = if step.kind <= 2 { step.second } else { step.first };
    let there = (1..=4).contains(&step.kind) && step.van < sheet.v() as u64;
    let ward = (1..=sheet.n() as u64 - 2).contains(&x);
    (there && ward).then_some((step.van as usize, x as usize))
}

fn nobodys(sheet: &Sheet, x: usize) -> bool {
    (0..sheet.v()).all(|van| !sheet.admits(x, van))
}

/// Of a step where no van has a ward that does not admit it.
pub fn note_step(tally: &mut Tally, sheet: &Sheet, step: &Step, answer: u64) {
    if (step.kind, answer) == (8, 0) && nobodys(sheet, step.first as usize) {
        tally.add(MUST);
    }
    let Some((van, x)) = named(sheet, step) else { return };
    if sheet.admits(x, van) {
        return;
    }
    match (step.kind, answer) {
        (1, 15) => tally.add(PLACING),
        (2, 15) => tally.add(CLOSING),
        (3, 0) => tally.add(EXCLUDING),
        (4, 0) => tally.add(REQUIRING),
        _ => {}
    }
}

/// Of an accepted step where some van has such a ward.
fn note_handed(tally: &mut Tally, sheet: &Sheet, fleet: &Fleet, step: &Step) {
    let van = step.van as usize;
    let shut = named(sheet, step).is_some_and(|(van, x)| !sheet.admits(x, van));
    let open = |x: usize| fleet.vans[van].sets[x] != 0 && !sheet.admits(x, van);
    match step.kind {
        1 if shut => tally.add(HANDED_PLACED),
        2 if shut => tally.add(HANDED_CLOSED),
        5 if (1..sheet.n() - 1).any(open) => tally.add(HANDED_SETTLED),
        7 => tally.add(HANDED_BACK),
        _ => {}
    }
}

/// Of a verdict where no van has such a ward: one that is wanted has no place, whatever else there is.
fn note_dead(tally: &mut Tally, sheet: &Sheet, fleet: &Fleet) {
    let wards = 1..sheet.n() - 1;
    let required = |van: usize| wards.clone().any(|x| fleet.vans[van].is_marked(x) && !sheet.admits(x, van));
    if (0..sheet.v()).any(required) {
        tally.add(DEAD_REQUIRED);
    }
    if wards.clone().any(|x| bit(fleet.must, x) && nobodys(sheet, x)) {
        tally.add(DEAD_MUST);
    }
}

fn on_a_route(sheet: &Sheet, fleet: &Fleet) -> bool {
    let strange = |van: usize| fleet.vans[van].path().iter().any(|&x| !sheet.admits(x, van));
    (0..sheet.v()).any(strange)
}
