//! The fleet's verdict: by its words, and against all choices.

use super::settling::keeping;
use super::trouble::hold;
use super::{Scene, Trouble};
use crate::choices::{all_keep_rules, choices, Choice};
use crate::fleet::Fleet;
use crate::rounds::{clean_first, in_load, in_metres, in_time};
use crate::sheet::Sheet;
use crate::state::bit;
use crate::tally::Tally;
use crate::verdict::{alive, owed, van_alive};

pub const NAMES: &[&str] = &[
    "verdict: as its words say",
    "no gap and alive: the routes are the one choice and keep the rules",
    "dead: no choice keeps the rules",
    "dead: by a van",
    "dead: by a ward that must go somewhere",
    "no gap and alive: with 2 vans",
    "no gap and alive: with 3 vans",
];

pub fn check(scene: &Scene, fleet: &Fleet, tally: &mut Tally) -> Result<(), Trouble> {
    let sheet = &scene.sheet;
    let says = alive(sheet, fleet);
    let vans_sound = (0..sheet.v()).all(|van| sound(sheet, fleet, van));
    let all_served = (1..sheet.n() - 1).all(|x| !bit(fleet.must, x) || served(sheet, fleet, x));
    hold(says == (vans_sound && all_served), NAMES[0], scene, fleet, || format!("alive {says}\n"))?;
    tally.add(NAMES[0]);
    if says && fleet.open_places() == 0 {
        let routes: Choice = fleet.vans[..sheet.v()].iter().map(|state| state.path()).collect();
        let well = all_keep_rules(sheet, &routes) && choices(sheet, fleet) == [routes];
        hold(well, NAMES[1], scene, fleet, String::new)?;
        tally.add(NAMES[1]);
        if sheet.v() > 1 {
            tally.add(format!("no gap and alive: with {} vans", sheet.v()));
        }
    }
    if !says && scene.opened {
        hold(keeping(scene, fleet).is_empty(), NAMES[2], scene, fleet, String::new)?;
        tally.add(NAMES[2]);
        let by_a_van = (0..sheet.v()).any(|van| !van_alive(sheet, van, &fleet.vans[van]));
        tally.add(if by_a_van { NAMES[3] } else { NAMES[4] });
    }
    Ok(())
}

fn served(sheet: &Sheet, fleet: &Fleet, x: usize) -> bool {
    fleet.vans[..sheet.v()].iter().any(|state| state.path().contains(&x) || state.sets[x] != 0)
}

fn sound(sheet: &Sheet, fleet: &Fleet, van: usize) -> bool {
    let state = &fleet.vans[van];
    let path = state.path();
    let turned = sheet.jobs.iter().any(|job| job.kind == 3 && turned(&path, job.a, job.b));
    let stranded = (1..sheet.n() - 1).any(|x| owed(sheet, state, x) && state.sets[x] == 0);
    in_time(sheet, &path)
        && in_metres(sheet, van, &path)
        && load_kept(sheet, van, &path)
        && (!sheet.profile || clean_first(sheet, &path))
        && !turned
        && !stranded
}

fn turned(path: &[usize], a: usize, b: usize) -> bool {
    let at = |x: usize| path.iter().position(|&v| v == x);
    matches!((at(a), at(b)), (Some(i), Some(j)) if i > j)
}

/// A wrong-way transfer would be carried a negative way by the walk; it is dead anyhow.
fn load_kept(sheet: &Sheet, van: usize, path: &[usize]) -> bool {
    sheet.jobs.iter().any(|job| job.kind == 3 && turned(path, job.a, job.b)) || in_load(sheet, van, path)
}
