//! Around the refusals of a sheet as a whole: sheets that 6 or 7 refuses, or just does not, and every
//! question asked of them. The fleet is one of that very sheet before the damage, so that as a rule
//! nothing else is amiss.

use super::draft::Draft;
use super::probes::{draft_for_steps, reached};
use super::{classes, damage, spoil, steps};
use crate::probe::{Case, OPEN, PLACES, SECTION, STEP, VERDICT};
use crate::rng::Rng;

/// What makes a sheet refused.
pub type Damage = fn(&mut Rng, &mut Draft);

/// The damage alone, or beside other damage whose refusal comes before it, or after it.
pub fn sheet(rng: &mut Rng, mut draft: Draft, refused_by: Damage) -> Vec<u8> {
    refused_by(rng, &mut draft);
    match rng.below(10) {
        0 => damage::doubled(rng, &mut draft),
        1 => damage::triangle(rng, &mut draft),
        2 => damage::value(rng, &mut draft),
        3 => damage::heavy(rng, &mut draft),
        4 => classes::shut_out(rng, &mut draft),
        _ => {}
    }
    let mut bytes = draft.bytes();
    if rng.one_in(12) {
        damage::length(rng, &mut bytes);
    }
    bytes
}

pub fn case(rng: &mut Rng, refused_by: Damage) -> Case {
    let draft = draft_for_steps(rng);
    let whole = draft.sheet();
    let (mut fleet, trail) = reached(rng, &whole);
    let question = *rng.pick(&[OPEN, STEP, STEP, PLACES, VERDICT, SECTION]);
    let words = match question {
        SECTION => [1 + rng.below(6) as u64; 3],
        _ => steps::pick(rng, &whole, &fleet),
    };
    if rng.one_in(5) {
        spoil::break_one(rng, &whole, &mut fleet);
    }
    Case { question, words, fleet, bytes: sheet(rng, draft, refused_by), trail }
}
