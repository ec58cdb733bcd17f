//! One step of the fleet: the refusals in their order, then the change with its records.

use crate::effect::{effect, Change};
use crate::fleet::{in_form, Fleet};
use crate::sheet::{self, Sheet};
use crate::slips;
use crate::state::{bit, State};
use crate::trail::{part, room};
use crate::verdict::owed;
use crate::whole;

pub struct Outcome {
    pub answer: u64,
    pub rounds: u64,
    pub fleet: Fleet,
    pub trail: Vec<u64>,
}

/// The three words of a step, the first taken apart: all bits above the lowest eight are the van.
pub struct Step {
    pub van: u64,
    pub kind: u64,
    pub first: u64,
    pub second: u64,
}

impl Step {
    pub fn of(words: [u64; 3]) -> Step {
        Step { van: words[0] / 256, kind: words[0] % 256, first: words[1], second: words[2] }
    }
}

pub fn step(bytes: &[u8], fleet: &Fleet, trail: &[u64], words: [u64; 3]) -> Outcome {
    match sheet::read_unless([slips::ONLY_OPENING_ASKS_6, slips::A_STEP_DOES_NOT_ASK_7], bytes) {
        Ok(sheet) if slips::on(slips::FIVE_ON_A_STEP) && whole::triangle_broken(&sheet) => {
            refused(5, fleet, trail)
        }
        Ok(sheet) => step_on(&sheet, fleet, trail, words),
        Err(number) => refused(number, fleet, trail),
    }
}

fn refused(answer: u64, fleet: &Fleet, trail: &[u64]) -> Outcome {
    Outcome { answer, rounds: 0, fleet: fleet.clone(), trail: trail.to_vec() }
}

/// The same, with the sheet already read.
pub fn step_on(sheet: &Sheet, fleet: &Fleet, trail: &[u64], words: [u64; 3]) -> Outcome {
    let change = match judge(sheet, fleet, trail, &Step::of(words)) {
        Ok(change) => change,
        Err(number) => return refused(number, fleet, trail),
    };
    let mut out = Outcome { answer: 0, rounds: change.rounds, fleet: change.fleet, trail: trail.to_vec() };
    for (van, record) in change.records {
        let own = &mut out.trail[part(trail.len(), sheet.v(), van)];
        let at = 2 * out.fleet.vans[van].records as usize;
        own[at..at + 2].copy_from_slice(&record);
        out.fleet.vans[van].records += 1;
    }
    out
}

fn judge(sheet: &Sheet, fleet: &Fleet, trail: &[u64], step: &Step) -> Result<Change, u64> {
    let room = room(trail.len(), sheet.v());
    if !in_form(sheet, fleet, Some(room)) {
        return Err(19);
    }
    if !(1..=8).contains(&step.kind) {
        return Err(11);
    }
    named(sheet, fleet, step)?;
    if step.kind == 3 && owing(sheet, fleet, step.van as usize, step.first as usize) {
        return Err(16);
    }
    let late = slips::on(slips::TWENTY_TWO_AFTER_ROOM);
    let owed_elsewhere = step.kind == 1 && another_owes(sheet, fleet, step);
    if owed_elsewhere && !late {
        return Err(22);
    }
    let levels = fleet.vans[0].level_count;
    if (step.kind == 6 && levels == 64) || (step.kind == 7 && levels == 0) {
        return Err(18);
    }
    let change = effect(sheet, fleet, trail, step)?;
    if short_of_room(sheet, fleet, &change, room) {
        return Err(17);
    }
    if owed_elsewhere && late {
        return Err(22);
    }
    Ok(change)
}

/// 21, then 12 to 15, as far as the kind has them.
fn named(sheet: &Sheet, fleet: &Fleet, step: &Step) -> Result<(), u64> {
    let ignores_van = step.kind >= 6 && !slips::on(slips::TWENTY_ONE_ON_ANY_STEP);
    if slips::on(slips::TWENTY_ONE_AFTER_12) {
        in_range(sheet, step)?;
    }
    if !ignores_van && step.van >= sheet.v() as u64 {
        return Err(21);
    }
    in_range(sheet, step)?;
    match step.kind {
        1 | 2 => place_named(&fleet.vans[step.van as usize], step.first as usize, step.second as usize),
        4 if slips::on(slips::REQUIRING_READS_CLASSES)
            && !sheet.admits(step.first as usize, step.van as usize) =>
        {
            Err(15)
        }
        3 | 4 => off_route(&fleet.vans[step.van as usize], step.first as usize),
        8 if slips::on(slips::MUST_ON_THE_ROUTE_REFUSED) => off_route(&fleet.vans[0], step.first as usize),
        _ => Ok(()),
    }
}

/// 12: the second word is x in steps 1 and 2, the first in 3, 4 and 8.
fn in_range(sheet: &Sheet, step: &Step) -> Result<(), u64> {
    let last = sheet.n() as u64 - 2;
    let inner = |x: u64| x >= 1 && x <= last;
    let well = match step.kind {
        1 | 2 => step.first <= last && inner(step.second),
        3 | 4 | 8 => inner(step.first),
        _ => true,
    };
    if well {
        Ok(())
    } else {
        Err(12)
    }
}

/// 13: the route of the van that is named.
fn off_route(state: &State, x: usize) -> Result<(), u64> {
    if state.on_route(x) {
        return Err(13);
    }
    Ok(())
}

/// 13 to 15 for steps 1 and 2.
fn place_named(state: &State, p: usize, x: usize) -> Result<(), u64> {
    off_route(state, x)?;
    if !state.on_route(p) {
        return Err(14);
    }
    if !state.is_open(x, p) {
        return Err(15);
    }
    Ok(())
}

/// Owed is a matter of one van; "must go somewhere" owes nothing.
fn owing(sheet: &Sheet, fleet: &Fleet, van: usize, x: usize) -> bool {
    owed(sheet, &fleet.vans[van], x) || (slips::on(slips::MUST_OWES) && bit(fleet.must, x))
}

/// Placing excludes the ward from the other vans, and an owed one cannot be excluded.
fn another_owes(sheet: &Sheet, fleet: &Fleet, step: &Step) -> bool {
    let x = step.second as usize;
    (0..sheet.v()).any(|other| {
        let asked = !slips::on(slips::OWED_ONLY_WHERE_OPEN) || fleet.vans[other].sets[x] != 0;
        other as u64 != step.van && asked && owed(sheet, &fleet.vans[other], x)
    })
}

/// Some van's part of the trail cannot take that van's records.
fn short_of_room(sheet: &Sheet, fleet: &Fleet, change: &Change, room: u64) -> bool {
    let asked = if slips::on(slips::ROOM_OF_THE_NAMED_VAN_ONLY) { 1 } else { sheet.v() };
    let first = change.records.first().map_or(0, |r| r.0);
    (first..sheet.v()).chain(0..first).take(asked).any(|van| {
        let needed = change.records.iter().filter(|r| r.0 == van).count() as u64;
        needed > room - fleet.vans[van].records
    })
}
