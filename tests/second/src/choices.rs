//! Brute force over a fleet: every choice of one round for each van.

use crate::fleet::Fleet;
use crate::rounds::{keeps_rules, rounds_of, Round};
use crate::sheet::Sheet;
use crate::state::bit;

/// One round a van, in van order.
pub type Choice = Vec<Round>;

/// Every choice the fleet stands for: rounds of its vans that share no ward and hold each ward
/// with the mark "must go somewhere".
pub fn choices(sheet: &Sheet, fleet: &Fleet) -> Vec<Choice> {
    let rounds: Vec<Vec<Round>> =
        fleet.vans[..sheet.v()].iter().map(|state| rounds_of(sheet.n(), state)).collect();
    let mut found = vec![];
    grow(&rounds, &mut vec![], &mut found);
    found.retain(|choice| (0..64).all(|x| !bit(fleet.must, x) || holds(choice, x)));
    found
}

fn grow(rounds: &[Vec<Round>], chosen: &mut Choice, found: &mut Vec<Choice>) {
    let Some(own) = rounds.get(chosen.len()) else {
        found.push(chosen.clone());
        return;
    };
    for round in own {
        let wards = &round[1..round.len() - 1];
        if wards.iter().all(|&x| !holds(chosen, x)) {
            chosen.push(round.clone());
            grow(rounds, chosen, found);
            chosen.pop();
        }
    }
}

/// Is the ward in some van's round?
pub fn holds(choice: &[Round], x: usize) -> bool {
    choice.iter().any(|round| round.contains(&x))
}

/// Each round with the limits of its own van.
pub fn all_keep_rules(sheet: &Sheet, choice: &[Round]) -> bool {
    choice.iter().enumerate().all(|(van, round)| keeps_rules(sheet, van, round))
}
