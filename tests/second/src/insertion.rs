//! The tests of settling a second time, in another form: not through E, L and H, but by
//! looking at the route with the node put into it. `check` holds the two forms together.

use crate::sheet::{Job, Sheet};
use crate::state::State;

/// Would place i (after stop i of the route) of x be struck?
pub fn falls(sheet: &Sheet, van: usize, state: &State, x: usize, i: usize) -> bool {
    let path = state.path();
    let mut with = path.clone();
    with.insert(i + 1, x);
    late(sheet, &with, i + 1)
        || !crate::rounds::in_metres(sheet, van, &with)
        || (sheet.profile && out_of_order(sheet, &with, i + 1))
        || sheet.jobs.iter().any(|job| match job.kind {
            3 if job.a == x || job.b == x => transfer_falls(sheet, van, state, &path, job, x, i),
            3 => false,
            _ => job.a == x && !fits(sheet, van, &path, job, &with),
        })
}

/// Seconds from stop i to stop j without any waiting.
fn drive(sheet: &Sheet, path: &[usize], i: usize, j: usize) -> i64 {
    (i..j).map(|s| sheet.nodes[path[s]].service + sheet.seconds(path[s], path[s + 1])).sum()
}

/// Start at a stop: the worst of waiting for any earlier stop and driving on from there.
fn start(sheet: &Sheet, path: &[usize], j: usize) -> i64 {
    (0..=j).map(|i| sheet.nodes[path[i]].earliest + drive(sheet, path, i, j)).max().unwrap_or(0)
}

/// x stands at `at`: is it late itself, or does its start, driven on without waiting, make a
/// later stop late? Late is a stop whose service is not over when its door is shut.
fn late(sheet: &Sheet, with: &[usize], at: usize) -> bool {
    let begin = start(sheet, with, at);
    (at..with.len()).any(|j| {
        let stop = &sheet.nodes[with[j]];
        begin + drive(sheet, with, at, j) + stop.service > stop.latest
    })
}

/// x stands at `at`: of it and some other stop, the one that comes first has a soiled job and the one that
/// comes second a clean one. What the other stops are to each other is not asked.
fn out_of_order(sheet: &Sheet, with: &[usize], at: usize) -> bool {
    let soiled = |node: usize| sheet.jobs.iter().any(|job| job.kind == 2 && job.a == node);
    let clean = |node: usize| sheet.jobs.iter().any(|job| job.kind == 1 && job.a == node);
    let pairs = (0..with.len()).filter(|&j| j != at).map(|j| (with[j.min(at)], with[j.max(at)]));
    pairs.into_iter().any(|(first, second)| soiled(first) && clean(second))
}

/// Loads of the route's own whole jobs and of this one job, along the list `with`, on the legs
/// where this job is aboard.
fn fits(sheet: &Sheet, van: usize, path: &[usize], job: &Job, with: &[usize]) -> bool {
    let capacity = sheet.van(van).capacity;
    (0..with.len() - 1)
        .all(|leg| !rides(job, with, leg) || load_on(sheet, path, with, leg) + job.load <= capacity)
}

fn load_on(sheet: &Sheet, path: &[usize], with: &[usize], leg: usize) -> i64 {
    let whole = |job: &&Job| path.contains(&job.a) && (job.kind != 3 || path.contains(&job.b));
    sheet.jobs.iter().filter(whole).filter(|job| rides(job, with, leg)).map(|job| job.load).sum()
}

/// Is the job aboard between stop `leg` and the next one of the list?
fn rides(job: &Job, list: &[usize], leg: usize) -> bool {
    let picked_up = list[..=leg].contains(&job.a);
    match job.kind {
        1 => list[leg + 1..].contains(&job.a),
        2 => picked_up,
        _ => picked_up && list[leg + 1..].contains(&job.b),
    }
}

fn transfer_falls(
    sheet: &Sheet,
    van: usize,
    state: &State,
    path: &[usize],
    job: &Job,
    x: usize,
    i: usize,
) -> bool {
    let partner = if job.a == x { job.b } else { job.a };
    if path.contains(&partner) {
        let mut with = path.to_vec();
        with.insert(i + 1, x);
        return !right_way(job, &with) || !fits(sheet, van, path, job, &with);
    }
    let mut ways = vec![];
    for j in 0..path.len() - 1 {
        if state.is_open(partner, path[j]) {
            ways.extend(both_put(path, x, i, partner, j));
        }
    }
    !ways.iter().any(|with| right_way(job, with) && fits(sheet, van, path, job, with))
}

fn right_way(job: &Job, list: &[usize]) -> bool {
    let at = |x: usize| list.iter().position(|&v| v == x);
    at(job.a) < at(job.b)
}

/// The route with x after stop i and y after stop j; in one leg both orders.
fn both_put(path: &[usize], x: usize, i: usize, y: usize, j: usize) -> Vec<Vec<usize>> {
    let mut lists = vec![vec![]];
    for (s, &stop) in path.iter().enumerate() {
        for list in lists.iter_mut() {
            list.push(stop);
        }
        if s == i && s == j {
            let mut turned: Vec<usize> = lists[0].clone();
            lists[0].extend([x, y]);
            turned.extend([y, x]);
            lists.push(turned);
        } else if s == i {
            lists[0].push(x);
        } else if s == j {
            lists[0].push(y);
        }
    }
    lists
}
