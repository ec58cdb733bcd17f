//! Stepping back: each van's records by themselves, newest first, each judged against what the
//! newer ones left; then the rule between vans, once, of the whole fleet.

use crate::fleet::{apart, Fleet};
use crate::sheet::Sheet;
use crate::slips;
use crate::state::{bit, State};
use crate::trail::part;

pub const SMALLER: u64 = 1;
pub const PLACED: u64 = 2;
pub const MARKED: u64 = 3;
pub const MUST: u64 = 4;

/// The fleet at its last level, that level dropped; None if a record does not fit or the vans
/// would share a ward.
pub fn step_back(sheet: &Sheet, fleet: &Fleet, trail: &[u64]) -> Option<Fleet> {
    let mut now = fleet.clone();
    for van in 0..sheet.v() {
        let top = fleet.vans[van].level_count as usize - 1;
        if van == 0 || !slips::on(slips::BACK_IN_THE_FIRST_VAN_ONLY) {
            undo_van(sheet, &mut now, van, &trail[part(trail.len(), sheet.v(), van)])?;
        }
        now.vans[van].levels[top] = 0;
        now.vans[van].level_count -= 1;
    }
    if !slips::on(slips::RULE_BETWEEN_VANS_NOT_ASKED) && !apart(sheet, &now) {
        return None;
    }
    Some(now)
}

/// Undoes one van's records above its last level.
fn undo_van(sheet: &Sheet, now: &mut Fleet, van: usize, trail: &[u64]) -> Option<()> {
    let floor = now.vans[van].levels[now.vans[van].level_count as usize - 1];
    for r in (floor..now.vans[van].records).rev() {
        let at = 2 * r as usize;
        undo_one(sheet, now, van, [trail[at], trail[at + 1]])?;
        if slips::on(slips::RULE_BETWEEN_VANS_AFTER_EACH_RECORD) && !apart(sheet, now) {
            return None;
        }
    }
    now.vans[van].records = floor;
    Some(())
}

/// Takes back what the record of this van tells, if it fits; else the fleet stays as it is.
pub fn undo_one(sheet: &Sheet, now: &mut Fleet, van: usize, record: [u64; 2]) -> Option<()> {
    let [first, second] = record;
    let kind = first / 256;
    let node = (first % 256) as usize;
    if node < 1 || node + 2 > sheet.n() {
        return None;
    }
    let state = &mut now.vans[van];
    let placed = state.on_route(node);
    match kind {
        SMALLER if !placed => undo_smaller(state, node, second),
        PLACED if placed => undo_placed(state, node, second),
        MARKED if !placed && state.is_marked(node) && second == 0 => {
            state.marks &= !(1 << node);
            Some(())
        }
        MUST if van == 0 || slips::on(slips::KIND_4_IN_ANY_TRAIL) => undo_must(now, node, second),
        _ => None,
    }
}

/// The ward may stand on a route: the mark is the fleet's and no van's.
fn undo_must(now: &mut Fleet, node: usize, second: u64) -> Option<()> {
    if second != 0 || !bit(now.must, node) {
        return None;
    }
    now.must &= !(1 << node);
    Some(())
}

fn only_legs(set: u64, path: &[usize]) -> bool {
    (0..64).all(|leg| !bit(set, leg) || path[..path.len() - 1].contains(&leg))
}

fn undo_smaller(state: &mut State, node: usize, old: u64) -> Option<()> {
    let now = state.sets[node];
    let contains = (0..64).all(|leg| !bit(now, leg) || bit(old, leg));
    if !contains || old == now || !only_legs(old, &state.path()) {
        return None;
    }
    state.sets[node] = old;
    Some(())
}

fn undo_placed(state: &mut State, node: usize, old: u64) -> Option<()> {
    let mut path = state.path();
    let at = path.iter().position(|&v| v == node)?;
    let predecessor = path[at - 1];
    path.remove(at);
    if !only_legs(old, &path) || !bit(old, predecessor) {
        return None;
    }
    state.put_path(&path);
    for set in state.sets.iter_mut() {
        if slips::on(slips::HALVES_MERGED_WHEN_UNDONE) && bit(*set, node) {
            *set |= 1 << predecessor;
        }
        *set &= !(1 << node);
    }
    state.sets[node] = old;
    Some(())
}
