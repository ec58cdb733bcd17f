//! Kept choices: what each accepted step leaves of the choices that the fleet stood for.

use super::trouble::hold;
use super::{Scene, Trouble};
use crate::choices::{choices, holds, Choice};
use crate::face::open;
use crate::gen::steps;
use crate::rng::Rng;
use crate::rounds::{all_rounds, uses_place};
use crate::sheet::words;
use crate::step::{step_on, Step};
use crate::tally::Tally;

pub const NAMES: &[&str] = &[
    "kept: step 1",
    "kept: step 2",
    "kept: step 3",
    "kept: step 4",
    "kept: step 8",
    "kept: some lost",
    "kept: a level loses none",
    "kept: with 1 vans",
    "kept: with 2 vans",
    "kept: with 3 vans",
    "fresh: the choices whose wards admit their vans",
    "fresh: some choice falls by a class",
];

pub fn check(rng: &mut Rng, scene: &Scene, tally: &mut Tally) -> Result<(), Trouble> {
    fresh(scene, tally)?;
    let before = choices(&scene.sheet, &scene.fleet);
    for kind in [1, 2, 3, 4, 8, 6] {
        for _ in 0..2 {
            let words = steps::pick_of(rng, &scene.sheet, &scene.fleet, &[kind]);
            one(scene, words, &before, tally)?;
        }
    }
    Ok(())
}

/// What opening makes stands for every choice of lists that share no ward and whose wards admit
/// their vans.
fn fresh(scene: &Scene, tally: &mut Tally) -> Result<(), Trouble> {
    if !scene.opened {
        return Ok(());
    }
    let mut every: Vec<Choice> = vec![vec![]];
    for _ in 0..scene.sheet.v() {
        every = every.iter().flat_map(|choice| longer(scene.sheet.n(), choice)).collect();
    }
    let words = words(&scene.bytes);
    let admitted: Vec<Choice> =
        every.iter().filter(|choice| all_admitted(scene, &words, choice)).cloned().collect();
    let (answer, fresh) = open(&scene.bytes);
    let well = answer == 0 && choices(&scene.sheet, &fresh) == admitted;
    hold(well, NAMES[10], scene, &fresh, || format!("opened {answer}, to belong {admitted:?}\n"))?;
    tally.add(NAMES[10]);
    if admitted.len() < every.len() {
        tally.add(NAMES[11]);
    }
    Ok(())
}

/// Straight from the words of the sheet: the van's bit goes into the node's set an odd number of times.
fn all_admitted(scene: &Scene, words: &[i64], choice: &Choice) -> bool {
    let (limits, nodes) = (scene.sheet.spans[0].0, scene.sheet.spans[1].0);
    let admits = |x: usize, van: usize| words[nodes + 4 * x + 3] / words[limits + 3 * van + 2] % 2 == 1;
    choice.iter().enumerate().all(|(van, round)| round.iter().all(|&x| admits(x, van)))
}

/// The choice with any one list more that shares no ward with it.
fn longer(n: usize, choice: &Choice) -> Vec<Choice> {
    let free = |x: &usize| *x == 0 || *x == n - 1 || !holds(choice, *x);
    let lists = all_rounds(n).into_iter().filter(|round| round.iter().all(free));
    lists.map(|round| choice.iter().cloned().chain([round]).collect()).collect()
}

fn one(scene: &Scene, words: [u64; 3], before: &[Choice], tally: &mut Tally) -> Result<(), Trouble> {
    let out = step_on(&scene.sheet, &scene.fleet, &scene.trail, words);
    if out.answer != 0 {
        return Ok(());
    }
    let step = Step::of(words);
    let mut kept = before.to_vec();
    kept.retain(|choice| stays(scene, &step, choice));
    let after = choices(&scene.sheet, &out.fleet);
    let name = if step.kind == 6 { NAMES[6].to_string() } else { format!("kept: step {}", step.kind) };
    hold(after == kept, &name, scene, &scene.fleet, || {
        format!("step {words:?}\nkept {kept:?}\nbelong after {after:?}\n")
    })?;
    if kept.len() < before.len() {
        tally.add(NAMES[5]);
    }
    tally.add(name);
    tally.add(format!("kept: with {} vans", scene.sheet.v()));
    Ok(())
}

/// Steps 1 to 4 speak of the named van's round, step 8 of all.
fn stays(scene: &Scene, step: &Step, choice: &Choice) -> bool {
    let (first, second) = (step.first as usize, step.second as usize);
    match step.kind {
        8 => return holds(choice, first),
        1..=4 => {}
        _ => return true,
    }
    let (path, round) = (scene.fleet.vans[step.van as usize].path(), &choice[step.van as usize]);
    match step.kind {
        1 => uses_place(&path, round, first, second),
        2 => !uses_place(&path, round, first, second),
        3 => !round.contains(&first),
        _ => round.contains(&first),
    }
}
