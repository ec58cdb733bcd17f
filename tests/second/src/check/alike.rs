//! Demand 3: runs of placing, excluding, requiring, marking and settling, over all vans by
//! turns, that end alike settle alike, and as worked out from the starting fleet.

use super::trouble::hold;
use super::{Scene, Trouble};
use crate::fleet::Fleet;
use crate::gen::steps;
use crate::rng::Rng;
use crate::settle::settle;
use crate::sheet::Sheet;
use crate::state::{bit, State};
use crate::step::{step_on, Step};
use crate::tally::Tally;
use crate::verdict::alive;

pub const NAMES: &[&str] = &[
    "runs: settle as worked out",
    "runs: two that end alike settle alike",
    "runs: with a placing",
    "runs: with an exclusion",
    "runs: with a new mark",
    "runs: placings in two vans",
    "runs: placings in three vans",
    "runs: the two in different order",
    "runs: alike, with placings and a settling between",
    "runs: alike, placings of two vans in different order",
];

/// A run: its accepted steps and the fleet it ends in.
pub struct Run {
    log: Vec<[u64; 3]>,
    end: Fleet,
}

impl Run {
    fn from(scene: &Scene) -> Run {
        Run { log: vec![], end: scene.fleet.clone() }
    }

    /// False if the step is refused; then the run stays as it is.
    fn try_step(&mut self, sheet: &Sheet, words: [u64; 3]) -> bool {
        // Room for all: the records are not compared here.
        let most = self.end.vans.iter().map(|state| state.records).max().unwrap_or(0);
        let trail = vec![0; sheet.v() * (2 * most as usize + 200)];
        let out = step_on(sheet, &self.end, &trail, words);
        if out.answer == 0 {
            self.end = out.fleet;
            self.log.push(words);
        }
        out.answer == 0
    }

    /// Van and ward of every step of this kind.
    fn named_by(&self, kind: u64) -> Vec<(usize, usize)> {
        let steps = self.log.iter().map(|&words| Step::of(words)).filter(|step| step.kind == kind);
        steps
            .map(|step| (step.van as usize, if kind == 1 { step.second } else { step.first } as usize))
            .collect()
    }
}

pub fn check(rng: &mut Rng, scene: &Scene, tally: &mut Tally) -> Result<(), Trouble> {
    if !scene.opened {
        return Ok(());
    }
    let mut one = Run::from(scene);
    for _ in 0..rng.below(12) {
        let words = steps::pick_of(rng, &scene.sheet, &one.end, &[1, 1, 1, 1, 3, 4, 5, 5, 8]);
        one.try_step(&scene.sheet, words);
    }
    let settled = settle_all(&scene.sheet, &one.end);
    let ideal = settle_all(&scene.sheet, &worked_out(scene, &one));
    hold(alike(&scene.sheet, &settled, &ideal), NAMES[0], scene, &scene.fleet, || {
        let (a, b) = (super::trouble::describe_fleet(&settled), super::trouble::describe_fleet(&ideal));
        format!("steps {:?}\nsettled\n{a}worked out\n{b}", one.log)
    })?;
    tally.add(NAMES[0]);
    note(&one, tally);
    for _ in 0..4 {
        if let Some(other) = second_run(rng, scene, &one) {
            return compare(scene, &one, &other, &settled, tally);
        }
    }
    Ok(())
}

/// What the run had in it.
fn note(run: &Run, tally: &mut Tally) {
    for (kind, name) in [(1, NAMES[2]), (3, NAMES[3]), (8, NAMES[4])] {
        if !run.named_by(kind).is_empty() {
            tally.add(name);
        }
    }
    let mut vans: Vec<usize> = run.named_by(1).iter().map(|placing| placing.0).collect();
    vans.sort();
    vans.dedup();
    match vans.len() {
        2 => tally.add(NAMES[5]),
        3 => tally.add(NAMES[6]),
        _ => {}
    }
}

/// "Settle once more" means every van.
fn settle_all(sheet: &Sheet, fleet: &Fleet) -> Fleet {
    let mut settled = fleet.clone();
    for van in 0..sheet.v() {
        settled.vans[van] = settle(sheet, van, &fleet.vans[van]).0;
    }
    settled
}

fn alike(sheet: &Sheet, one: &Fleet, other: &Fleet) -> bool {
    let same = |van: usize| {
        one.vans[van].sets == other.vans[van].sets && one.vans[van].path() == other.vans[van].path()
    };
    (0..sheet.v()).all(same) && alive(sheet, one) == alive(sheet, other)
}

/// Each van's end route put into its starting state; the new marks are those at the end.
fn worked_out(scene: &Scene, run: &Run) -> Fleet {
    let mut fleet = scene.fleet.clone();
    for van in 0..scene.sheet.v() {
        // Its own exclusions, and what the run placed in any other van.
        let own = run.named_by(3).into_iter().filter(|deed| deed.0 == van);
        let others = run.named_by(1).into_iter().filter(|deed| deed.0 != van);
        let excluded: Vec<usize> = own.chain(others).map(|deed| deed.1).collect();
        fleet.vans[van] =
            worked_out_van(scene.sheet.n(), &scene.fleet.vans[van], &run.end.vans[van], &excluded);
    }
    fleet.must = run.end.must;
    fleet
}

fn worked_out_van(n: usize, start: &State, end: &State, excluded: &[usize]) -> State {
    let (begin, path) = (start.path(), end.path());
    let mut state = start.clone();
    state.put_path(&path);
    state.sets = [0; 64];
    for x in 1..n - 1 {
        if end.is_marked(x) && !path.contains(&x) {
            state.marks |= 1 << x;
        }
        if path.contains(&x) || excluded.contains(&x) {
            continue;
        }
        let mut last = 0;
        for &leg in &path[..path.len() - 1] {
            if begin.contains(&leg) {
                last = leg;
            }
            if start.is_open(x, last) {
                state.sets[x] |= 1 << leg;
            }
        }
    }
    state
}

/// Another run to the same routes, exclusions, required wards and new marks, in an order of its
/// own; None if that order is refused on the way.
fn second_run(rng: &mut Rng, scene: &Scene, one: &Run) -> Option<Run> {
    let mut deeds: Vec<(u64, usize, usize)> = vec![];
    for van in 0..scene.sheet.v() {
        let (begin, goal) = (scene.fleet.vans[van].path(), one.end.vans[van].path());
        deeds.extend(goal.iter().filter(|x| !begin.contains(x)).map(|&x| (1, van, x)));
    }
    deeds.extend(one.named_by(3).iter().map(|&(van, x)| (3, van, x)));
    let unplaced = |deed: &&(usize, usize)| !one.end.vans[deed.0].on_route(deed.1);
    deeds.extend(one.named_by(4).iter().filter(unplaced).map(|&(van, x)| (4, van, x)));
    let new = one.end.must & !scene.fleet.must;
    deeds.extend((0..64).filter(|&x| bit(new, x)).map(|x| (8, rng.below(9), x)));
    deeds.extend((0..rng.below(3)).map(|_| (5, rng.below(scene.sheet.v()), 0)));
    rng.shuffle(&mut deeds);
    let mut run = Run::from(scene);
    for (kind, van, x) in deeds {
        let word = 256 * van as u64 + kind;
        let words = if kind == 1 {
            let p = predecessor(&one.end.vans[van].path(), &run.end.vans[van].path(), x);
            [word, p as u64, x as u64]
        } else {
            [word, x as u64, 0]
        };
        if !run.try_step(&scene.sheet, words) {
            return None;
        }
    }
    Some(run)
}

/// The last node before x on the goal that is on the route by now.
fn predecessor(goal: &[usize], now: &[usize], x: usize) -> usize {
    let mut last = 0;
    for &v in goal {
        if v == x {
            break;
        }
        if now.contains(&v) {
            last = v;
        }
    }
    last
}

fn compare(scene: &Scene, one: &Run, other: &Run, settled: &Fleet, tally: &mut Tally) -> Result<(), Trouble> {
    let again = settle_all(&scene.sheet, &other.end);
    let same = alike(&scene.sheet, settled, &again) && settled.must == again.must;
    hold(same, NAMES[1], scene, &scene.fleet, || {
        let (a, b) = (super::trouble::describe_fleet(settled), super::trouble::describe_fleet(&again));
        format!("steps {:?}\nand   {:?}\nsettled\n{a}and\n{b}", one.log, other.log)
    })?;
    tally.add(NAMES[1]);
    if one.log != other.log {
        tally.add(NAMES[7]);
        let placings = one.named_by(1);
        if placings.len() >= 2 && one.log.iter().chain(&other.log).any(|w| w[0] % 256 == 5) {
            tally.add(NAMES[8]);
        }
        if placings.iter().any(|p| p.0 != placings[0].0) && placings != other.named_by(1) {
            tally.add(NAMES[9]);
        }
    }
    Ok(())
}
