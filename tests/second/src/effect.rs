//! What an accepted step does to the fleet, and the records it leaves.

use crate::fleet::Fleet;
use crate::settle::settle;
use crate::sheet::Sheet;
use crate::slips;
use crate::state::bit;
use crate::step::Step;
use crate::undo::{step_back, MARKED, MUST, PLACED, SMALLER};

/// What a step comes to, before it is known whether the trails have room.
pub struct Change {
    pub fleet: Fleet,
    /// Van and record, in the order they are written.
    pub records: Vec<(usize, [u64; 2])>,
    pub rounds: u64,
}

impl Change {
    fn note(&mut self, van: usize, kind: u64, x: usize, old: u64) {
        self.records.push((van, [256 * kind + x as u64, old]));
    }
}

/// Only of steps that are judged up to 18; 20 comes from here.
pub fn effect(sheet: &Sheet, fleet: &Fleet, trail: &[u64], step: &Step) -> Result<Change, u64> {
    let mut change = Change { fleet: fleet.clone(), records: vec![], rounds: 0 };
    let van = step.van as usize;
    let (first, second) = (step.first as usize, step.second as usize);
    match step.kind {
        1 => place(sheet, &mut change, van, first, second),
        2 => {
            let set = fleet.vans[van].sets[second] & !(1 << first);
            narrow(&mut change, van, second, set);
        }
        3 => narrow(&mut change, van, first, 0),
        4 => require(&mut change, van, first),
        5 => settling(sheet, &mut change, van),
        6 => open_levels(sheet, &mut change, van),
        7 => change.fleet = step_back(sheet, fleet, trail).ok_or(20u64)?,
        _ => must_go(&mut change, first),
    }
    Ok(change)
}

/// Into the named van, and out of all others in the same step.
fn place(sheet: &Sheet, change: &mut Change, van: usize, p: usize, x: usize) {
    place_in(change, van, p, x);
    let last = if van + 1 == sheet.v() { van.saturating_sub(1) } else { sheet.v() - 1 };
    for other in 0..sheet.v() {
        let forgotten = slips::on(slips::PLACING_FORGETS_ONE_VAN) && other == last;
        if other != van && !forgotten {
            if slips::on(slips::A_RECORD_IN_EVERY_OTHER_VAN) && change.fleet.vans[other].sets[x] == 0 {
                change.note(other, SMALLER, x, 0);
            }
            narrow(change, other, x, 0);
        }
    }
}

fn place_in(change: &mut Change, van: usize, p: usize, x: usize) {
    change.note(van, PLACED, x, change.fleet.vans[van].sets[x]);
    let state = &mut change.fleet.vans[van];
    let mut path = state.path();
    let at = path.iter().position(|&v| v == p).expect("judged by 14");
    path.insert(at + 1, x);
    state.put_path(&path);
    state.sets[x] = 0;
    for y in 0..64 {
        if state.is_open(y, p) && !slips::on(slips::ONE_HALF_ONLY) {
            state.sets[y] |= 1 << x;
        }
    }
    if slips::on(slips::MARK_DROPPED_WHEN_PLACED) {
        state.marks &= !(1 << x);
    }
}

/// Gives x a smaller set in one van, with a record if it is smaller indeed.
fn narrow(change: &mut Change, van: usize, x: usize, set: u64) {
    let old = change.fleet.vans[van].sets[x];
    if old != set {
        change.note(van, SMALLER, x, old);
        change.fleet.vans[van].sets[x] = set;
    }
}

fn require(change: &mut Change, van: usize, x: usize) {
    if !change.fleet.vans[van].is_marked(x) {
        change.note(van, MARKED, x, 0);
        change.fleet.vans[van].marks |= 1 << x;
    }
}

/// The record stands in the first van's trail, whatever van the step names.
fn must_go(change: &mut Change, x: usize) {
    if !bit(change.fleet.must, x) {
        change.note(0, MUST, x, 0);
        change.fleet.must |= 1 << x;
    }
}

fn settling(sheet: &Sheet, change: &mut Change, van: usize) {
    let (settled, rounds) = settle(sheet, van, &change.fleet.vans[van]);
    for x in 0..64 {
        let by_class = slips::on(slips::SETTLING_READS_CLASSES) && x < sheet.n() && !sheet.admits(x, van);
        narrow(change, van, x, if by_class { 0 } else { settled.sets[x] });
    }
    change.rounds = rounds;
}

/// In all vans together; each notes its own record count.
fn open_levels(sheet: &Sheet, change: &mut Change, named: usize) {
    for (van, state) in change.fleet.vans[..sheet.v()].iter_mut().enumerate() {
        if slips::on(slips::LEVEL_IN_THE_NAMED_VAN_ONLY) && van != named {
            continue;
        }
        state.levels[state.level_count as usize] = state.records;
        state.level_count += 1;
    }
}
