//! A whole day, metric by construction: a town of straight streets, the dock at both ends, the
//! nodes numbered along a sweep, windows around that sweep, each shut once a service begun in it
//! can be over, and every node with all its jobs.

use super::draft::Draft;
use super::{loads, steps};
use crate::fleet::Fleet;
use crate::rng::Rng;
use crate::sheet::Sheet;
use crate::step::step_on;
use crate::trail::ample;
use crate::verdict::alive;

const METRES_A_SECOND: i64 = 5;
const START: i64 = 21_600;

/// Corners in a sweep: street by street, up one and down the next.
fn corners(rng: &mut Rng, n: usize) -> Vec<(i64, i64)> {
    let streets = 1 + n as i64 / 8;
    let mut inner: Vec<(i64, i64)> =
        (0..n - 2).map(|_| (rng.between(0, streets - 1), rng.between(1, 90))).collect();
    inner.sort_by_key(|&(street, along)| (street, if street % 2 == 0 { along } else { -along }));
    let mut all = vec![(0, 0)];
    all.extend(inner.iter().map(|&(street, along)| (street * 40, along * 10)));
    all.push((0, 0));
    all
}

fn table(corners: &[(i64, i64)]) -> Vec<i64> {
    let apart = |a: &(i64, i64), b: &(i64, i64)| (a.0 - b.0).abs() + (a.1 - b.1).abs();
    corners.iter().flat_map(|a| corners.iter().map(move |b| apart(a, b))).collect()
}

/// Clean and soiled linen at every inner node, and all of them paired for transfers.
fn all_jobs(rng: &mut Rng, n: usize) -> Vec<[u32; 4]> {
    let mut jobs = vec![];
    for x in 1..n as u32 - 1 {
        jobs.push([1, x, 0, rng.between(1, 12) as u32]);
        jobs.push([2, x, 0, rng.between(1, 12) as u32]);
    }
    let mut ends: Vec<u32> = (1..n as u32 - 1).collect();
    rng.shuffle(&mut ends);
    for pair in ends.chunks_exact(2) {
        // Mostly along the sweep, so that a whole route can be driven.
        let (a, b) = (pair[0].min(pair[1]), pair[0].max(pair[1]));
        jobs.push(if rng.one_in(9) { [3, b, a, 2] } else { [3, a, b, rng.between(1, 6) as u32] });
    }
    jobs
}

/// n nodes, v vans, no steps yet. With 64 nodes it has 155 jobs. Each van could drive the whole
/// sweep, the later ones with a little less aboard and a little farther. Each is of a class of its
/// own, and every node admits all of them. There is no profile: every ward has clean and soiled linen.
pub fn day(rng: &mut Rng, n: usize, v: usize) -> Draft {
    let metres = table(&corners(rng, n));
    // Rounded up, the parts of a way never come to less than the whole: still metric.
    let seconds: Vec<i64> = metres.iter().map(|m| (m + METRES_A_SECOND - 1) / METRES_A_SECOND).collect();
    let jobs = all_jobs(rng, n);
    let mut nodes = vec![];
    let mut time = START;
    let mut length = 0;
    for x in 0..n {
        let service = if x == 0 || x == n - 1 { 0 } else { rng.between(2, 8) * 30 };
        if x > 0 {
            time += seconds[(x - 1) * n + x];
            length += metres[(x - 1) * n + x];
        }
        let late = if x == n - 1 { 1_800 } else { rng.between(300, 6_000) };
        let early = if x == 0 { 0 } else { rng.between(0, 4_000) };
        let latest = (time + late + service).min(1_000_000);
        nodes.push([(time - early).max(0) as u32, latest as u32, service as u32, (1 << v) - 1]);
        time += service;
    }
    let total: u32 = jobs.iter().filter(|j| j[0] == 1).map(|j| j[3]).sum();
    let capacity = (total + total / 4).clamp(loads::heaviest(&jobs), 1000);
    let limit = (length + length / 3) as u32;
    let van = |i: u32| [capacity - i * capacity / 40, limit + 50 * i, 1 << i];
    Draft {
        limits: (0..v as u32).map(van).collect(),
        profile: 0,
        nodes,
        jobs,
        seconds: seconds.iter().map(|&v| v as u32).collect(),
        metres: metres.iter().map(|&v| v as u32).collect(),
        steps: vec![],
        false_counts: vec![],
    }
}

/// Steps of someone who tries: place, settle, step back when the fleet is dead.
pub fn story(rng: &mut Rng, sheet: &Sheet, count: usize) -> Vec<[u32; 3]> {
    let mut fleet = Fleet::fresh(sheet);
    let mut trail = vec![0; ample(sheet.n(), sheet.v())];
    let mut out: Vec<[u32; 3]> = vec![];
    while out.len() < count {
        for words in turn(rng, sheet, &fleet) {
            let done = step_on(sheet, &fleet, &trail, words);
            fleet = done.fleet;
            trail = done.trail;
            out.push(words.map(|w| w as u32));
        }
        if !alive(sheet, &fleet) {
            fleet = back(sheet, &fleet, &mut trail, &mut out);
        }
    }
    out.truncate(count);
    out
}

fn back(sheet: &Sheet, fleet: &Fleet, trail: &mut Vec<u64>, out: &mut Vec<[u32; 3]>) -> Fleet {
    let done = step_on(sheet, fleet, trail, [7, 0, 0]);
    *trail = done.trail;
    out.push([7, 0, 0]);
    done.fleet
}

/// With one van no van is drawn and no ward "must go somewhere": the days of 01 stay as they are.
fn turn(rng: &mut Rng, sheet: &Sheet, fleet: &Fleet) -> Vec<[u64; 3]> {
    let alone = sheet.v() == 1;
    let van = if alone { 0 } else { rng.below(sheet.v()) };
    let word = |kind: u64| 256 * van as u64 + kind;
    let place = steps::pick_in(rng, sheet, fleet, van, &[1]);
    let ward = |rng: &mut Rng| 1 + rng.below(sheet.n() - 2) as u64;
    match rng.below(if alone { 12 } else { 13 }) {
        0 => vec![steps::pick_in(rng, sheet, fleet, van, &[2])],
        1 => vec![[word(4), ward(rng), 0]],
        2 => vec![[word(3), ward(rng), 0]],
        3 => vec![[7, 0, 0]],
        4..=6 => vec![place],
        12 => vec![[8, ward(rng), 0]],
        _ => vec![[6, 0, 0], place, [word(5), 0, 0]],
    }
}
