//! What a run must have met of the profile in verdicts: fleets that are dead by it alone, and alive
//! ones that another rule would call dead.

use crate::fleet::Fleet;
use crate::rounds::clean_first;
use crate::sheet::{Job, Sheet};
use crate::tally::Tally;
use crate::verdict::alive;

const DEAD: &str = "profile: dead by it alone";
const DEAD_OTHER: &str = "profile: dead by it alone, the first of several vans in order";
const DEAD_APART: &str = "profile: dead by it alone, and no two neighbours break it";
const DEAD_BOTH: &str = "profile: dead by it alone, for two stops with both jobs";
const BOTH_ALONE: &str = "profile: alive with a stop that has both jobs alone on its route";
const BOTH_BETWEEN: &str = "profile: alive with a stop that has both jobs between a clean and a soiled one";
const ACROSS: &str = "profile: alive with a soiled stop in one van and a clean one in the next";
const SECOND: &str = "profile: alive with a transfer's second node behind a soiled stop";
const FIRST: &str = "profile: alive with a transfer's first node before a clean stop";
const WITHOUT: &str = "no profile: alive with a route that it would call dead";

pub const NAMES: &[&str] =
    &[DEAD, DEAD_OTHER, DEAD_APART, DEAD_BOTH, BOTH_ALONE, BOTH_BETWEEN, ACROSS, SECOND, FIRST, WITHOUT];

/// Of a fleet whose verdict is asked.
pub fn note_judged(tally: &mut Tally, sheet: &Sheet, fleet: &Fleet) {
    let mut other = sheet.clone();
    other.profile = !sheet.profile;
    let wards = |van: usize| -> Vec<usize> {
        let path = fleet.vans[van].path();
        path[1..path.len() - 1].to_vec()
    };
    let routes: Vec<Vec<usize>> = (0..sheet.v()).map(wards).collect();
    match (sheet.profile, alive(sheet, fleet), alive(&other, fleet)) {
        (true, false, true) => note_dead(tally, sheet, &routes),
        (true, true, _) => {
            routes.iter().for_each(|route| note_alive(tally, sheet, route));
            let soils = |route: &[usize]| route.iter().any(|&x| has(sheet, 2, x));
            let cleans = |route: &[usize]| route.iter().any(|&x| has(sheet, 1, x));
            let next = routes.windows(2).any(|pair| soils(&pair[0]) && cleans(&pair[1]));
            tally.add_held([(ACROSS, next)]);
        }
        (false, true, false) => tally.add(WITHOUT),
        _ => {}
    }
}

fn has(sheet: &Sheet, kind: i64, x: usize) -> bool {
    sheet.jobs.iter().any(|job| job.kind == kind && job.a == x)
}

fn both(sheet: &Sheet, x: usize) -> bool {
    has(sheet, 1, x) && has(sheet, 2, x)
}

fn note_dead(tally: &mut Tally, sheet: &Sheet, routes: &[Vec<usize>]) {
    let well = |route: &[usize]| clean_first(sheet, route);
    let broken: Vec<&Vec<usize>> = routes.iter().filter(|route| !well(route)).collect();
    let apart = |route: &&Vec<usize>| route.windows(2).all(well);
    let only_both = |route: &&Vec<usize>| {
        let rest: Vec<usize> = route.iter().copied().filter(|&x| !both(sheet, x)).collect();
        rest.len() + 2 == route.len() && well(&rest)
    };
    tally.add_held([
        (DEAD, true),
        (DEAD_OTHER, well(&routes[0])),
        (DEAD_APART, broken.iter().all(apart)),
        (DEAD_BOTH, broken.iter().all(only_both)),
    ]);
}

fn note_alive(tally: &mut Tally, sheet: &Sheet, route: &[usize]) {
    let split = route.iter().position(|&x| both(sheet, x));
    let between = split.is_some_and(|at| {
        route[..at].iter().any(|&x| has(sheet, 1, x)) && route[at + 1..].iter().any(|&x| has(sheet, 2, x))
    });
    tally.add_held([
        (BOTH_ALONE, route.len() == 1 && split.is_some()),
        (BOTH_BETWEEN, between),
        (SECOND, !clean_first(&taken_for(sheet, |job| [1, job.b]), route)),
        (FIRST, !clean_first(&taken_for(sheet, |job| [2, job.a]), route)),
    ]);
}

/// The sheet with one end of each transfer taken for clean or for soiled linen: kind and node.
fn taken_for(sheet: &Sheet, end: impl Fn(&Job) -> [usize; 2]) -> Sheet {
    let mut other = sheet.clone();
    for job in other.jobs.iter_mut().filter(|job| job.kind == 3) {
        let [kind, node] = end(job);
        *job = Job { kind: kind as i64, a: node, b: 0, load: job.load };
    }
    other
}
