//! Clean before soiled: what settling and the verdict ask of a route on a sheet with the profile. No
//! stop with a soiled job comes before another stop with a clean job; one stop may have both.

use crate::sheet::{Job, Sheet};
use crate::slips;

const CLEAN: i64 = 1;
const SOILED: i64 = 2;

/// Place number `i` (after stop i) of x: x is soiled and a clean stop lies behind the place, or x is
/// clean and a soiled stop is at or before it.
pub fn strikes(sheet: &Sheet, path: &[usize], x: usize, i: usize) -> bool {
    if slips::on(slips::SETTLING_WITHOUT_THE_PROFILE) {
        return false;
    }
    let mut so_far = &path[..i + usize::from(!slips::on(slips::SOILED_STOPS_STRICTLY_BEFORE))];
    let mut behind = &path[i + usize::from(!slips::on(slips::CLEAN_STOP_AT_THE_PLACE_TOO))..];
    if slips::on(slips::PROFILE_BETWEEN_NEIGHBOURS_ONLY) {
        so_far = &path[i..=i];
        behind = &path[i + 1..=i + 1];
    }
    let soiled = has(sheet, x, SOILED) && !slips::on(slips::SOILED_NODES_NOT_ASKED);
    let clean = has(sheet, x, CLEAN) && !slips::on(slips::CLEAN_NODES_NOT_ASKED);
    let itself = slips::on(slips::A_STOP_AGAINST_ITSELF_IN_SETTLING) && soiled && clean;
    (soiled && behind.iter().any(|&stop| has(sheet, stop, CLEAN)))
        || (clean && so_far.iter().any(|&stop| has(sheet, stop, SOILED)))
        || itself
}

/// Some soiled stop of the route comes before another one that is clean.
pub fn broken(sheet: &Sheet, path: &[usize]) -> bool {
    if slips::on(slips::VERDICT_WITHOUT_THE_PROFILE) {
        return false;
    }
    let itself = usize::from(!slips::on(slips::A_STOP_AGAINST_ITSELF_IN_THE_VERDICT));
    let next_only = slips::on(slips::PROFILE_BETWEEN_NEIGHBOURS_ONLY);
    (0..path.len()).filter(|&i| has(sheet, path[i], SOILED)).any(|i| {
        let last = if next_only { (i + 2).min(path.len()) } else { path.len() };
        path[i + itself..last].iter().any(|&stop| has(sheet, stop, CLEAN))
    })
}

/// Has the node a job of this kind? The ends of a transfer are neither clean nor soiled.
fn has(sheet: &Sheet, x: usize, kind: i64) -> bool {
    let kind = if slips::on(slips::SOILED_BEFORE_CLEAN) { CLEAN + SOILED - kind } else { kind };
    let own = sheet.jobs.iter().filter(|job| job.a == x || (job.kind == 3 && job.b == x));
    let looked_at = if slips::on(slips::FIRST_JOB_OF_A_NODE_ONLY) { 1 } else { sheet.jobs.len() };
    let is = |job: &Job, kind: i64| job.kind == kind || taken_for(job, x, kind);
    let found = |kind: i64| own.clone().take(looked_at).any(|job| is(job, kind));
    let exempt = slips::on(slips::A_STOP_WITH_BOTH_IS_NEITHER) && found(CLEAN) && found(SOILED);
    found(kind) && !exempt
}

/// A transfer's end taken for what it is not.
fn taken_for(job: &Job, x: usize, kind: i64) -> bool {
    job.kind == 3
        && ((kind == CLEAN && job.b == x && slips::on(slips::A_TRANSFERS_SECOND_NODE_IS_CLEAN))
            || (kind == SOILED && job.a == x && slips::on(slips::A_TRANSFERS_FIRST_NODE_IS_SOILED)))
}
