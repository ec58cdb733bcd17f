//! Settling of one van: rounds that strike together, until one strikes nothing.

use crate::facts::Facts;
use crate::sheet::Sheet;
use crate::slips;
use crate::state::{bit, State};
use crate::strike::struck;

/// The sets as they are when nothing more is struck, and the number of striking rounds.
pub fn settle(sheet: &Sheet, van: usize, before: &State) -> (State, u64) {
    let facts = Facts::of(sheet, van, before);
    let mut state = before.clone();
    let mut rounds = 0;
    loop {
        let next = one_round(sheet, &state, &facts);
        if next == state {
            return (state, rounds);
        }
        state = next;
        rounds += 1;
    }
}

/// All places are judged against the sets at the beginning of the round.
pub fn one_round(sheet: &Sheet, begin: &State, facts: &Facts) -> State {
    let mut end = begin.clone();
    for x in (0..64).filter(|&x| begin.sets[x] != 0) {
        for i in 0..=facts.last_leg() {
            let leg = facts.path[i];
            if !bit(begin.sets[x], leg) {
                continue;
            }
            let against = if slips::on(slips::PLACE_BY_PLACE) { &end } else { begin };
            if struck(sheet, against, facts, x, i) {
                end.sets[x] &= !(1 << leg);
            }
        }
    }
    end
}
