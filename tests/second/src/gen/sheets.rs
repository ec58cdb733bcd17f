//! Whole sheets that opening accepts: metric, with windows, metres and loads that are tight
//! around some tour, so that the tests of settling have something to strike.

use super::classes;
use super::doors;
use super::draft::Draft;
use super::loads;
use super::profiles;
use super::steps;
use super::tables;
use crate::rng::Rng;

/// A tour through some of the inner nodes.
fn tour(rng: &mut Rng, n: usize) -> Vec<usize> {
    let mut inner: Vec<usize> = (1..n - 1).collect();
    rng.shuffle(&mut inner);
    inner.truncate(rng.below(n - 1));
    let mut path = vec![0];
    path.extend(inner);
    path.push(n - 1);
    path
}

fn clip(value: i64) -> u32 {
    value.clamp(0, 1_000_000) as u32
}

/// Windows around the times of the tour, shut when the service can be over; nodes off it get
/// windows around any time.
fn windows(rng: &mut Rng, n: usize, path: &[usize], seconds: &[i64]) -> Vec<[u32; 4]> {
    let most_service = *rng.pick(&[0, 3, 6, 20]);
    let slack = *rng.pick(&[0, 2, 8, 30, 200, 3_000_000]);
    let open_early = rng.one_in(2);
    let services: Vec<i64> = (0..n).map(|_| rng.between(0, most_service)).collect();
    let mut times: Vec<i64> = vec![-1; n];
    let mut time = rng.between(0, slack.min(50));
    for (i, &here) in path.iter().enumerate() {
        if i > 0 {
            let before = path[i - 1];
            time += services[before] + seconds[before * n + here] + rng.between(0, slack.min(9));
        }
        times[here] = time;
    }
    let end = time;
    (0..n)
        .map(|x| {
            let at = if times[x] >= 0 { times[x] } else { rng.between(0, end.max(1)) };
            let earliest = if open_early && x > 0 { 0 } else { clip(at - rng.between(0, slack)) };
            let latest = clip(at + services[x] + rng.between(0, slack)).max(earliest);
            [earliest, latest, clip(services[x]), 1]
        })
        .collect()
}

fn jobs(rng: &mut Rng, n: usize, most_load: i64) -> Vec<[u32; 4]> {
    let often = rng.below(4) + 1;
    let mut list = vec![];
    let load = |rng: &mut Rng| rng.between(1, most_load) as u32;
    for x in 1..n as u32 - 1 {
        for kind in 1..=2 {
            if rng.below(5) < often {
                list.push([kind, x, 0, load(rng)]);
            }
        }
    }
    let mut ends: Vec<u32> = (1..n as u32 - 1).collect();
    rng.shuffle(&mut ends);
    for pair in ends.chunks_exact(2) {
        if rng.below(5) < often + 1 {
            list.push([3, pair[0], pair[1], load(rng)]);
        }
    }
    rng.shuffle(&mut list);
    list.truncate(155);
    list
}

/// A sheet of v vans without steps. Each van has limits of its own around the same tour, now and
/// then a door is shut too early for anyone, some wards do not admit every van, and half of the
/// sheets have the profile.
pub fn plain(rng: &mut Rng, n: usize, v: usize) -> Draft {
    let seconds = tables::any(rng, n);
    let metres = if rng.one_in(3) { seconds.clone() } else { tables::any(rng, n) };
    let path = tour(rng, n);
    let length: i64 = path.windows(2).map(|w| metres[w[0] * n + w[1]]).sum();
    let most_load = *rng.pick(&[1, 2, 5, 5, 1000]);
    let most_more = *rng.pick(&[3, 20, 60, 2_000_000]);
    let mut van = || {
        let capacity = rng.between(0, (most_load * (n as i64 / 2 + 2)).min(1000));
        [capacity as u32, clip(length + rng.between(-3, most_more)), 1]
    };
    let mut draft = Draft {
        limits: (0..v).map(|_| van()).collect(),
        profile: 0,
        nodes: windows(rng, n, &path, &seconds),
        jobs: jobs(rng, n, most_load),
        seconds: seconds.iter().map(|&v| clip(v)).collect(),
        metres: metres.iter().map(|&v| clip(v)).collect(),
        steps: vec![],
        false_counts: vec![],
    };
    profiles::deal(rng, &mut draft);
    loads::ride(rng, &mut draft);
    doors::shut_some(rng, &mut draft);
    classes::deal(rng, &mut draft);
    draft
}

pub fn any_size(rng: &mut Rng) -> usize {
    match rng.below(20) {
        0 => 2,
        1 => 3,
        2..=15 => 4 + rng.below(4),
        16 | 17 => 8 + rng.below(12),
        18 => 20 + rng.below(44),
        _ => 64,
    }
}

/// One van as often as not, and fleets of every size.
pub fn any_vans(rng: &mut Rng) -> usize {
    match rng.below(20) {
        0..=7 => 1,
        8..=11 => 2,
        12..=15 => 3,
        16 | 17 => 4 + rng.below(4),
        _ => 8,
    }
}

/// With a list of steps that mostly run.
pub fn with_steps(rng: &mut Rng, n: usize, count: usize) -> Draft {
    let vans = any_vans(rng);
    let mut draft = plain(rng, n, vans);
    draft.steps = steps::list(rng, &draft.sheet(), count);
    draft
}
