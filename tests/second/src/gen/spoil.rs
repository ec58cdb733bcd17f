//! Fleets out of form: one van broken by itself, or a rule of the fleet broken though every van
//! is in form.

use super::states;
use crate::fleet::{Fleet, MOST_VANS};
use crate::rng::Rng;
use crate::sheet::Sheet;
use crate::state::{State, WORDS};

/// Breaks the form (or, rarely, does not) at one place.
pub fn break_one(rng: &mut Rng, sheet: &Sheet, fleet: &mut Fleet) {
    let (n, v) = (sheet.n(), sheet.v());
    let van = rng.below(v);
    match rng.below(16) {
        0..=5 | 14 | 15 => states::break_one(rng, n, &mut fleet.vans[van]),
        6 => on_two_routes(rng, sheet, fleet),
        7 => placed_and_open(rng, sheet, fleet),
        8 => unequal_levels(rng, &mut fleet.vans[van]),
        9 => fleet.must |= 1 << *rng.pick(&[0, n - 1, n.min(63), 63]),
        10 => no_van_with_a_number(rng, v, fleet),
        11 => fleet.vans.swap(van, rng.below(MOST_VANS)),
        12 => fleet.vans[van] = fleet.vans[rng.below(v)].clone(),
        _ => fleet.vans[van] = State::all_open(n),
    }
}

/// A van and one of the wards on its route, if any van has one.
fn stop(rng: &mut Rng, sheet: &Sheet, fleet: &Fleet) -> Option<(usize, usize)> {
    let mut all = vec![];
    for van in 0..sheet.v() {
        let path = fleet.vans[van].path();
        all.extend(path[1..path.len() - 1].iter().map(|&x| (van, x)));
    }
    if all.is_empty() || sheet.v() < 2 {
        return None;
    }
    Some(*rng.pick(&all))
}

fn other_van(rng: &mut Rng, v: usize, van: usize) -> usize {
    (van + 1 + rng.below(v - 1)) % v
}

fn on_two_routes(rng: &mut Rng, sheet: &Sheet, fleet: &mut Fleet) {
    if let Some((van, x)) = stop(rng, sheet, fleet) {
        let other = &mut fleet.vans[other_van(rng, sheet.v(), van)];
        let mut path = other.path();
        path.insert(1 + rng.below(path.len() - 1), x);
        other.put_path(&path);
        other.sets[x] = 0;
    }
}

fn placed_and_open(rng: &mut Rng, sheet: &Sheet, fleet: &mut Fleet) {
    if let Some((van, x)) = stop(rng, sheet, fleet) {
        let other = &mut fleet.vans[other_van(rng, sheet.v(), van)];
        let path = other.path();
        other.sets[x] |= 1 << path[rng.below(path.len() - 1)];
    }
}

/// One level more or fewer, well formed for that van alone.
fn unequal_levels(rng: &mut Rng, state: &mut State) {
    let used = state.level_count as usize;
    if used > 0 && (used == 64 || rng.one_in(2)) {
        state.levels[used - 1] = 0;
        state.level_count -= 1;
    } else {
        state.levels[used] = state.records;
        state.level_count += 1;
    }
}

fn no_van_with_a_number(rng: &mut Rng, v: usize, fleet: &mut Fleet) {
    if v < MOST_VANS {
        let spare = &mut fleet.vans[v + rng.below(MOST_VANS - v)];
        let mut words = spare.to_words();
        words[rng.below(WORDS)] = *rng.pick(&[1, 2, 1 << 63]);
        *spare = State::from_words(&words);
    }
}
