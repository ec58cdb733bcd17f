//! Refused: nothing changes. Seen on the same broken cases that the comparison uses.

use super::Trouble;
use crate::fleet::Fleet;
use crate::gen::probes::case;
use crate::probe::{OPEN, SECTION, STEP};
use crate::tally::Tally;

pub const NAMES: &[&str] = &[
    "refused: fleet and trail as before, rounds 0",
    "refused opening: every number 0",
    "questions change nothing",
];

/// A few cases of the comparison's kind for each case of the check.
pub fn check(seed: u64, number: u64, tally: &mut Tally) -> Result<(), Trouble> {
    for k in 0..3 {
        one(seed, 3 * number + k, tally)?;
    }
    Ok(())
}

fn one(seed: u64, number: u64, tally: &mut Tally) -> Result<(), Trouble> {
    let case = case(seed, number);
    if case.question == SECTION {
        return Ok(());
    }
    let (heads, fleet, trail) = case.ask();
    let untouched = fleet == case.fleet && trail == case.trail;
    let (name, well) = match case.question {
        OPEN if heads.answer != 0 => (NAMES[1], fleet == Fleet::zero() && trail == case.trail),
        STEP if heads.answer != 0 => (NAMES[0], untouched && heads.rounds == 0),
        OPEN | STEP => return Ok(()),
        _ => (NAMES[2], untouched && (heads.answer == 0 || heads.places == 0 && heads.alive == 0)),
    };
    if !well {
        let note = format!("probe case {number}, step {:?}\n", case.words);
        return Err(Trouble {
            property: name.to_string(),
            sheet: case.bytes,
            fleet: Box::new(case.fleet),
            note,
        });
    }
    tally.add(name);
    if heads.answer != 0 {
        tally.add(format!("refusal {}", heads.answer));
    }
    Ok(())
}
