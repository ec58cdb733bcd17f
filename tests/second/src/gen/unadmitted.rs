//! Steps that name a ward which does not admit their van, and the verdict behind them: from fleets
//! that steps led to, where it is never open, and from made-up ones, where it may be.

use super::probes::{draft_for_steps, reached};
use super::{classes, fleets, steps};
use crate::fleet::Fleet;
use crate::probe::{Case, STEP, VERDICT};
use crate::rng::Rng;
use crate::sheet::Sheet;
use crate::step::step_on;

pub fn case(rng: &mut Rng) -> Case {
    let mut draft = draft_for_steps(rng);
    classes::narrow(rng, &mut draft);
    let sheet = draft.sheet();
    let (mut fleet, mut trail) = reached(rng, &sheet);
    if rng.one_in(3) {
        fleet = fleets::made_up(rng, &sheet);
        trail = vec![4; 2 * sheet.v()];
    }
    let words = step(rng, &sheet, &fleet);
    let question = *rng.pick(&[STEP, STEP, VERDICT]);
    if question == VERDICT {
        fleet = step_on(&sheet, &fleet, &trail, words).fleet;
    }
    Case { question, words, fleet, bytes: draft.bytes(), trail }
}

/// Any step, where every ward admits every van.
fn step(rng: &mut Rng, sheet: &Sheet, fleet: &Fleet) -> [u64; 3] {
    let strangers = strangers(sheet);
    if strangers.is_empty() {
        return steps::pick(rng, sheet, fleet);
    }
    let (van, x) = *rng.pick(&strangers);
    let state = &fleet.vans[van];
    let legs = state.path()[..state.stops as usize - 1].to_vec();
    let open: Vec<usize> = legs.iter().copied().filter(|&leg| state.is_open(x, leg)).collect();
    let stop = *rng.pick(if open.is_empty() { &legs } else { &open }) as u64;
    let served = |x: usize| (0..sheet.v()).any(|van| sheet.admits(x, van));
    let nobodys: Vec<usize> = (1..sheet.n() - 1).filter(|&x| !served(x)).collect();
    match *rng.pick(&[1, 1, 2, 3, 4, 8]) {
        8 if !nobodys.is_empty() => [8, *rng.pick(&nobodys) as u64, 0],
        kind @ 1..=2 => [256 * van as u64 + kind, stop, x as u64],
        kind => [256 * van as u64 + kind, x as u64, steps::odd(rng)],
    }
}

/// Van and ward, wherever the ward does not admit the van.
fn strangers(sheet: &Sheet) -> Vec<(usize, usize)> {
    let mut found = vec![];
    for van in 0..sheet.v() {
        found.extend((1..sheet.n() - 1).filter(|&x| !sheet.admits(x, van)).map(|x| (van, x)));
    }
    found
}
