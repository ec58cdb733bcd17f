//! Stepping back restores the fleet; records from fresh stay within their bounds.

use super::trouble::{describe_fleet, hold};
use super::{Scene, Trouble};
use crate::fleet::{in_form, Fleet};
use crate::gen::{parts, steps};
use crate::rng::Rng;
use crate::step::{step_on, Outcome};
use crate::tally::Tally;
use crate::trail::{ample, room};

pub const NAMES: &[&str] = &[
    "stepping back restores the fleet",
    "stepping back takes new marks away",
    "records within their bounds",
    "accepted steps keep the form",
];

pub fn check(rng: &mut Rng, scene: &Scene, tally: &mut Tally) -> Result<(), Trouble> {
    restores(rng, scene, tally)?;
    bound(rng, scene, tally)
}

/// A level, then accepted steps with levels of their own, then back to below that level.
fn restores(rng: &mut Rng, scene: &Scene, tally: &mut Tally) -> Result<(), Trouble> {
    let before = &scene.fleet;
    let floor = before.vans[0].level_count;
    let mut log = vec![[6, 0, 0]];
    let mut now = step_on(&scene.sheet, before, &scene.trail, [6, 0, 0]);
    if now.answer != 0 {
        return Ok(());
    }
    for _ in 0..rng.below(20) {
        let words = steps::pick(rng, &scene.sheet, &now.fleet);
        if words[0] % 256 == 7 && now.fleet.vans[0].level_count == floor + 1 {
            continue;
        }
        now = step_on(&scene.sheet, &now.fleet, &now.trail, words);
        log.push(words);
    }
    let marked = now.fleet.must != before.must;
    while now.fleet.vans[0].level_count > floor {
        now = step_on(&scene.sheet, &now.fleet, &now.trail, [7, 0, 0]);
        log.push([7, 0, 0]);
        hold(now.answer == 0, NAMES[0], scene, before, || format!("steps {log:?}\nanswer {}\n", now.answer))?;
    }
    let same = now.fleet == *before && old_records(scene, &now.trail) == old_records(scene, &scene.trail);
    hold(same, NAMES[0], scene, before, || {
        format!("steps {log:?}\nended in\n{}", describe_fleet(&now.fleet))
    })?;
    tally.add(NAMES[0]);
    if marked {
        tally.add(NAMES[1]);
    }
    Ok(())
}

/// The records of every van that stood before.
fn old_records(scene: &Scene, trail: &[u64]) -> Vec<Vec<u64>> {
    let mut kept = parts::cut(trail, scene.sheet.v());
    for (van, words) in kept.iter_mut().enumerate() {
        words.truncate(2 * scene.fleet.vans[van].records as usize);
    }
    kept
}

/// Steps that write as much as they can: split a leg, close what it opened, one place at a time.
fn bound(rng: &mut Rng, scene: &Scene, tally: &mut Tally) -> Result<(), Trouble> {
    let (n, v) = (scene.sheet.n(), scene.sheet.v());
    let trail = vec![0; ample(n, v)];
    let room = room(trail.len(), v);
    let mut now = Outcome { answer: 0, rounds: 0, fleet: Fleet::fresh(&scene.sheet), trail };
    let greedy = rng.one_in(2);
    for _ in 0..40 {
        let kinds: &[u64] = if greedy { &[2, 2, 1, 4, 8] } else { &[1, 2, 3, 4, 5, 6, 7, 8] };
        let words = steps::pick_of(rng, &scene.sheet, &now.fleet, kinds);
        let next = step_on(&scene.sheet, &now.fleet, &now.trail, words);
        let well = ![17, 19, 20].contains(&next.answer) && within(n, &next.fleet);
        hold(well, NAMES[2], scene, &now.fleet, || format!("step {words:?} answer {}\n", next.answer))?;
        now = next;
    }
    tally.add(NAMES[2]);
    hold(in_form(&scene.sheet, &now.fleet, Some(room)), NAMES[3], scene, &now.fleet, String::new)?;
    tally.add(NAMES[3]);
    Ok(())
}

/// The first van's records may be n − 2 more than those of any other.
fn within(n: usize, fleet: &Fleet) -> bool {
    let most = (n * (n - 2)) as u64;
    fleet.vans.iter().enumerate().all(|(van, state)| {
        let more = if van == 0 { n as u64 - 2 } else { 0 };
        state.records <= most + more
    })
}
