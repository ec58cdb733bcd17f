//! The profile, and jobs and routes that leave something to decide under it. Where every ward had
//! both clean and soiled linen, any two of them on one route would be dead.

use super::draft::{self, Draft};
use super::{edges, fleets, sheets, steps};
use crate::fleet::Fleet;
use crate::probe::{Case, STEP, VERDICT};
use crate::rng::Rng;
use crate::sheet::Sheet;

const CLEAN: i64 = 1;
const SOILED: i64 = 2;

/// What a ward may have besides a transfer.
const KINDS: [&[u32]; 7] = [&[1, 2], &[1, 2], &[1], &[1], &[2], &[2], &[]];

/// The profile in half of the sheets; in half, with it or not, the wards keep a part of their jobs.
/// Transfers stay, so some wards have nothing else.
pub fn deal(rng: &mut Rng, draft: &mut Draft) {
    draft.profile = rng.below(2) as u32;
    if rng.one_in(2) {
        let kept: Vec<&[u32]> = draft.nodes.iter().map(|_| *rng.pick(&KINDS)).collect();
        draft.jobs.retain(|job| job[0] == 3 || kept[job[1] as usize].contains(&job[0]));
    }
}

/// The wards of a route in an order that keeps the rule, if no more than one of them has both jobs.
pub fn put_in_order(sheet: &Sheet, wards: &mut [usize]) {
    let has = |kind: i64, x: usize| sheet.jobs.iter().any(|job| job.kind == kind && job.a == x);
    wards.sort_by_key(|&x| match (has(CLEAN, x), has(SOILED, x)) {
        (true, false) => 0,
        (true, true) => 1,
        (false, true) => 2,
        // Wards with neither may stand anywhere: by their number here or there.
        (false, false) => x % 3,
    });
}

/// Everything else as wide as can be, so that as a rule the profile alone decides, and clean and soiled
/// jobs dealt anew. Without the profile there is nothing to decide, but that must be seen as well.
pub fn alone(rng: &mut Rng, draft: &mut Draft) {
    edges::loosen(rng, draft);
    draft.profile = u32::from(!rng.one_in(4));
    draft.jobs.retain(|job| job[0] == 3);
    for x in 1..draft.n() as u32 - 1 {
        let kinds = *rng.pick(&KINDS);
        draft.jobs.extend(kinds.iter().map(|&kind| [kind, x, 0, 1 + x % 9]));
    }
    rng.shuffle(&mut draft.jobs);
}

/// Nothing is wanted that a route lacks, and no transfer goes the wrong way: no marks, and no transfer
/// that a route has one end of, or both in wrong order.
pub fn ease(draft: &mut Draft, fleet: &mut Fleet) {
    let routes: Vec<Vec<usize>> = fleet.vans[..draft.v()].iter().map(|state| state.path()).collect();
    let whole = |route: &Vec<usize>, job: &[u32; 4]| {
        let at = |x: u32| route.iter().position(|&stop| stop == x as usize);
        match (at(job[1]), at(job[2])) {
            (Some(a), Some(b)) => a < b,
            ends => ends == (None, None),
        }
    };
    draft.jobs.retain(|job| job[0] < 3 || routes.iter().all(|route| whole(route, job)));
    fleet.must = 0;
    fleet.vans.iter_mut().for_each(|state| state.marks = 0);
}

/// Settling and verdicts that hang on the profile.
pub fn case(rng: &mut Rng) -> Case {
    let (size, vans) = (4 + rng.below(8), sheets::any_vans(rng));
    let mut draft = sheets::plain(rng, size, vans);
    alone(rng, &mut draft);
    let sheet = draft.sheet();
    let mut fleet = fleets::made_up(rng, &sheet);
    let van = rng.below(vans);
    if rng.one_in(4) {
        fleets::quiet_but(rng, &sheet, &mut fleet, van);
    }
    if !rng.one_in(4) {
        ease(&mut draft, &mut fleet);
    }
    let question = *rng.pick(&[STEP, VERDICT]);
    let words = [256 * van as u64 + 5, steps::odd(rng), 1];
    Case { question, words, fleet, bytes: draft.bytes(), trail: vec![6; 2 * size * vans] }
}

/// A number that is not the profile's, or just is.
pub fn wrong_number(rng: &mut Rng, draft: &mut Draft) {
    draft.profile = *rng.pick(&[2, 2, 3, 255, 256, 257, 1 << 16, 1 << 31, u32::MAX, 1]);
}

/// The limits of any number of vans without the number behind them, as they once were, or with one
/// more.
pub fn other_layout(rng: &mut Rng, mut draft: Draft) -> Vec<u8> {
    let vans = 1 + rng.below(8);
    draft.limits = draft.limits.iter().copied().cycle().take(vans).collect();
    let mut words = draft.words();
    let last = 3 * vans + 1;
    if rng.below(3) > 0 {
        words.remove(last);
        words[0] -= 1;
    } else {
        words.insert(last, rng.below(2) as u32);
        words[0] += 1;
    }
    draft::to_bytes(&words)
}
