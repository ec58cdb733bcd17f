//! Settling and verdict, against the tests in their second form and against all choices.

use super::trouble::hold;
use super::{Scene, Trouble};
use crate::choices::{all_keep_rules, choices, Choice};
use crate::doors;
use crate::facts::Facts;
use crate::fleet::Fleet;
use crate::gen::parts;
use crate::insertion::falls;
use crate::profile;
use crate::profile_calls;
use crate::profile_verdicts;
use crate::step::{step_on, Outcome};
use crate::strike;
use crate::tally::Tally;
use crate::verdict::van_alive;

pub const NAMES: &[&str] = &[
    "settling: strikes what the tests strike and nothing else",
    "settling: at most 2 rounds",
    "settling: records as stated",
    "settling: loses no rule-keeping choice",
    "settling: 0 rounds",
    "settling: 1 rounds",
    "settling: 2 rounds",
    "settling: some rule-keeping choice there",
    "settling: of a dead van",
    "struck by window",
    "struck by metres",
    "struck by the profile",
    "struck by a load",
    "struck by transfer, partner placed",
    "struck by transfer, neither placed",
];

/// Van by van, each from the fleet as it was.
pub fn check(scene: &Scene, tally: &mut Tally) -> Result<(), Trouble> {
    let before = if scene.opened { keeping(scene, &scene.fleet) } else { vec![] };
    for van in 0..scene.sheet.v() {
        let words = [256 * van as u64 + 5, 0, 0];
        let out = step_on(&scene.sheet, &scene.fleet, &scene.trail, words);
        hold(out.answer == 0, NAMES[2], scene, &scene.fleet, || format!("refused {}\n", out.answer))?;
        exactly(scene, van, &out, tally)?;
        records(scene, van, &out, tally)?;
        if scene.opened {
            loses_none(scene, &before, &out, tally)?;
        }
        super::verdicts::check(scene, &out.fleet, tally)?;
        note_reasons(scene, van, tally);
        doors::note_settled(tally, &scene.sheet, &scene.fleet.vans[van]);
        profile_calls::note_settled(tally, &scene.sheet, van, &scene.fleet.vans[van]);
    }
    doors::note_judged(tally, &scene.sheet, &scene.fleet);
    profile_verdicts::note_judged(tally, &scene.sheet, &scene.fleet);
    super::verdicts::check(scene, &scene.fleet, tally)
}

/// The choices of the fleet that keep the rules.
pub fn keeping(scene: &Scene, fleet: &Fleet) -> Vec<Choice> {
    let mut found = choices(&scene.sheet, fleet);
    found.retain(|choice| all_keep_rules(&scene.sheet, choice));
    found
}

/// Rounds once more, with the tests by insertion.
fn exactly(scene: &Scene, van: usize, out: &Outcome, tally: &mut Tally) -> Result<(), Trouble> {
    let begin_of_all = &scene.fleet.vans[van];
    let path = begin_of_all.path();
    let mut now = begin_of_all.clone();
    let mut rounds = 0;
    loop {
        let begin = now.clone();
        for x in 0..64 {
            for i in 0..path.len() - 1 {
                if begin.is_open(x, path[i]) && falls(&scene.sheet, van, &begin, x, i) {
                    now.sets[x] &= !(1 << path[i]);
                }
            }
        }
        if now == begin {
            break;
        }
        rounds += 1;
    }
    let settled = &out.fleet.vans[van].sets;
    let same = now.sets == *settled && rounds == out.rounds;
    hold(same, NAMES[0], scene, &scene.fleet, || {
        let (a, b) = (&now.sets[..7], &settled[..7]);
        format!("van {van}: by insertion {rounds} rounds {a:?}\nsettling {} rounds {b:?}\n", out.rounds)
    })?;
    tally.add(NAMES[0]);
    hold(rounds <= 2, NAMES[1], scene, &scene.fleet, || format!("van {van}: {rounds} rounds\n"))?;
    tally.add(NAMES[1]);
    tally.add(format!("settling: {rounds} rounds"));
    if !van_alive(&scene.sheet, van, begin_of_all) {
        tally.add(NAMES[8]);
    }
    Ok(())
}

/// One record for each node whose set shrank, ascending, with the set before, in the trail of the
/// van that is settled; nothing else, and nothing in any other van.
fn records(scene: &Scene, van: usize, out: &Outcome, tally: &mut Tally) -> Result<(), Trouble> {
    let v = scene.sheet.v();
    let mut trail = parts::cut(&scene.trail, v);
    let mut fleet = scene.fleet.clone();
    let before = &scene.fleet.vans[van].sets;
    for x in 0..64 {
        if out.fleet.vans[van].sets[x] != before[x] {
            let at = 2 * fleet.vans[van].records as usize;
            trail[van][at..at + 2].copy_from_slice(&[256 + x as u64, before[x]]);
            fleet.vans[van].records += 1;
        }
    }
    fleet.vans[van].sets = out.fleet.vans[van].sets;
    let over = scene.trail.len() / v * v;
    let same =
        trail.concat() == out.trail[..over] && scene.trail[over..] == out.trail[over..] && fleet == out.fleet;
    hold(same, NAMES[2], scene, &scene.fleet, || format!("van {van}: trail {:?}\n", out.trail))?;
    tally.add(NAMES[2]);
    Ok(())
}

fn loses_none(scene: &Scene, before: &[Choice], out: &Outcome, tally: &mut Tally) -> Result<(), Trouble> {
    let after = keeping(scene, &out.fleet);
    hold(before == after, NAMES[3], scene, &scene.fleet, || format!("before {before:?}\nafter {after:?}\n"))?;
    tally.add(NAMES[3]);
    if !before.is_empty() {
        tally.add(NAMES[7]);
    }
    Ok(())
}

/// Which tests had something to strike in the first round.
fn note_reasons(scene: &Scene, van: usize, tally: &mut Tally) {
    let (sheet, state) = (&scene.sheet, &scene.fleet.vans[van]);
    let facts = Facts::of(sheet, van, state);
    for x in 1..sheet.n() - 1 {
        for i in 0..=facts.last_leg() {
            if !state.is_open(x, facts.path[i]) || !strike::struck(sheet, state, &facts, x, i) {
                continue;
            }
            let by_transfer = sheet
                .jobs
                .iter()
                .find(|j| j.kind == 3 && (j.a == x || j.b == x) && strike::transfer(state, &facts, j, x, i));
            tally.add(match by_transfer {
                _ if strike::window(sheet, &facts, x, i) => "struck by window",
                _ if strike::metres(sheet, &facts, x, i) => "struck by metres",
                _ if facts.profile && profile::strikes(sheet, &facts.path, x, i) => "struck by the profile",
                Some(_) if sheet.partner(x).is_some_and(|y| state.on_route(y)) => {
                    "struck by transfer, partner placed"
                }
                Some(_) => "struck by transfer, neither placed",
                None => "struck by a load",
            });
        }
    }
}
