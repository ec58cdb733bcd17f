//! Sheets that are refused, one way for each rule, and some that are damaged twice.

use super::classes;
use super::draft::Draft;
use super::loads;
use super::profiles;
use super::steps::odd;
use crate::rng::Rng;

/// Numbers for a count: `good` is in range, `most` the greatest in range.
fn wrong_count(rng: &mut Rng, good: usize, most: usize) -> u32 {
    let (good, most) = (good as u32, most as u32);
    let near = [good.wrapping_sub(2), good.wrapping_sub(1), good + 1, good + 2, most + 1, most + 2];
    let far = [0, 1, 65, 2001, u32::MAX, 0x8000_0002, 0x4000_0002];
    if rng.one_in(2) {
        *rng.pick(&near)
    } else {
        *rng.pick(&far)
    }
}

pub fn count(rng: &mut Rng, draft: &mut Draft) {
    let square = draft.seconds.len();
    let most = [25, 64, 155, square, square, 2000];
    let which = rng.below(6);
    let value = wrong_count(rng, draft.sections()[which].0, most[which]);
    draft.false_counts.push((which, value));
}

fn job(rng: &mut Rng, draft: &mut Draft) {
    let end = draft.n() as u32 - 1;
    let odd = odd(rng) as u32;
    if draft.jobs.is_empty() {
        draft.jobs.push([1, 1, 0, 1]);
    }
    let at = rng.below(draft.jobs.len());
    let j = &mut draft.jobs[at];
    match rng.below(9) {
        0 => j[0] = *rng.pick(&[0, 4, 257, u32::MAX]),
        1 => j[1] = *rng.pick(&[0, end, end + 1, odd]),
        2 => j[2] = *rng.pick(&[0, end, end + 1, odd]),
        3 => j[2] = j[1],
        4 => j[3] = *rng.pick(&[0, 0, 0, 1001, 1001, 1000, 65_537, u32::MAX]),
        5 => *j = [1, 1, 1, 1],
        6 => *j = [2, 1, end, 1],
        7 => *j = [3, 1, 1, 1],
        _ => *j = [3, 1, 0, 1],
    }
}

fn above(rng: &mut Rng) -> u32 {
    *rng.pick(&[1_000_001, 1_000_000, 0x8000_0000, u32::MAX, 1 << 24])
}

/// A word of sections 1 to 5 against its rule (or just within it).
pub fn value(rng: &mut Rng, draft: &mut Draft) {
    let (n, v) = (draft.n(), draft.v());
    match rng.below(13) {
        0 => draft.limits[rng.below(v)][0] = *rng.pick(&[1001, 1000, u32::MAX]),
        10 | 11 => classes::wrong_word(rng, draft),
        12 => profiles::wrong_number(rng, draft),
        1 => draft.limits[rng.below(v)][1] = above(rng),
        2 => draft.nodes[rng.below(n)][rng.below(3)] = above(rng),
        3 => {
            let node = &mut draft.nodes[rng.below(n)];
            node[0] = node[1].wrapping_add(1);
        }
        4 | 5 | 9 => job(rng, draft),
        6 => draft.seconds[rng.below(n * n)] = above(rng),
        7 => draft.metres[rng.below(n * n)] = above(rng),
        _ => draft.seconds[(n + 1) * rng.below(n)] = above(rng),
    }
}

/// A second job of one kind at a node, or a second transfer end.
pub fn doubled(rng: &mut Rng, draft: &mut Draft) {
    let inner = draft.n() as u32 - 2;
    if inner < 2 {
        return value(rng, draft);
    }
    let a = 1 + rng.below(inner as usize) as u32;
    let b = a % inner + 1;
    let twice = match rng.below(4) {
        0 => [[1, a, 0, 1], [1, a, 0, 2]],
        1 => [[2, a, 0, 1], [2, a, 0, 1]],
        2 => [[3, a, b, 1], [3, b, a, 1]],
        _ => [[3, a, b, 1], [3, a, b % inner + 1, 1]],
    };
    for job in twice {
        let at = rng.below(draft.jobs.len() + 1);
        draft.jobs.insert(at, job);
    }
    draft.jobs.truncate(155);
}

/// One job above the largest capacity, mostly by 1; in one sheet of four none is, but one just rides.
pub fn heavy(rng: &mut Rng, draft: &mut Draft) {
    if draft.n() < 3 {
        return value(rng, draft);
    }
    if draft.jobs.is_empty() {
        draft.jobs.push([1, 1, 0, 1]);
    }
    if rng.one_in(2) {
        loads::just_ride(rng, draft);
        if rng.one_in(2) {
            return;
        }
    }
    // A load is at most 1,000, so there must be room above the largest capacity.
    for van in draft.limits.iter_mut() {
        van[0] = van[0].min(999);
    }
    let above = loads::largest(draft) + 1;
    let more = rng.between(above.into(), 1000) as u32;
    let last = draft.jobs.len() - 1;
    let any = rng.below(last + 1);
    let at = *rng.pick(&[0, last, any]);
    draft.jobs[at][3] = *rng.pick(&[above, above, above, more]);
}

/// One entry above the way round some third node, by 1 or more.
pub fn triangle(rng: &mut Rng, draft: &mut Draft) {
    let n = draft.n();
    if n < 3 {
        return value(rng, draft);
    }
    let mut three: Vec<usize> = (0..n).collect();
    rng.shuffle(&mut three);
    let (i, j, k) = (three[0], three[1], three[2]);
    let table = if rng.one_in(2) { &mut draft.seconds } else { &mut draft.metres };
    let round = table[i * n + j].saturating_add(table[j * n + k]);
    let more = *rng.pick(&[0, 1, 1, 1, 1, 5]);
    table[i * n + k] = round.saturating_add(more).min(1_000_000);
}

/// One entry above the shortest way round by 1, or just not above it.
pub fn one_way(rng: &mut Rng, draft: &mut Draft) {
    let n = draft.n();
    let any = rng.below(n);
    let to = *rng.pick(&[0, n - 1, any, any]);
    let from = (to + 1 + rng.below(n - 1)) % n;
    let table = if rng.one_in(2) { &mut draft.seconds } else { &mut draft.metres };
    let others = (0..n).filter(|&by| by != from && by != to);
    let round = others.map(|by| table[from * n + by] + table[by * n + to]).min().unwrap_or(0);
    let more = *rng.pick(&[0, 1, 1, 1]);
    table[from * n + to] = (round + more).min(1_000_000);
}

/// Bytes cut off, words cut off, words added, or half words.
pub fn length(rng: &mut Rng, bytes: &mut Vec<u8>) {
    match rng.below(5) {
        0 => bytes.truncate(rng.below(bytes.len() + 1)),
        1 => bytes.truncate(4 * rng.below(bytes.len() / 4 + 1)),
        2 => bytes.extend(vec![0; 4 * (1 + rng.below(3))]),
        3 => bytes.extend(vec![0; 1 + rng.below(3)]),
        _ => bytes.truncate(bytes.len() - 4),
    }
}

/// A wrong value in a section that is also cut short, often by one word: the shortness counts.
pub fn short_and_wrong(rng: &mut Rng, mut draft: Draft) -> Vec<u8> {
    value(rng, &mut draft);
    let lengths: Vec<usize> = draft.sections().iter().map(|section| section.1.len()).collect();
    let last = rng.below(6);
    let end: usize = lengths[..=last].iter().map(|length| 1 + length).sum();
    let cut = if rng.one_in(2) { 1 } else { 1 + rng.below(lengths[last] + 1) };
    let mut bytes = draft.bytes();
    bytes.truncate(4 * end.saturating_sub(cut));
    bytes
}

fn one(rng: &mut Rng, draft: &mut Draft) {
    match rng.below(9) {
        0 | 5 => count(rng, draft),
        1 | 2 => value(rng, draft),
        3 | 6 => doubled(rng, draft),
        7 => heavy(rng, draft),
        8 => classes::shut_out(rng, draft),
        _ => triangle(rng, draft),
    }
}

/// One damage, now and then two or three, or a word of the whole sheet at random.
pub fn sheet(rng: &mut Rng, mut draft: Draft) -> Vec<u8> {
    let times = *rng.pick(&[1, 1, 1, 1, 2, 3]);
    let by_length = rng.one_in(5);
    if !by_length || times > 1 {
        for _ in 0..times {
            one(rng, &mut draft);
        }
    }
    let mut bytes = draft.bytes();
    if by_length {
        length(rng, &mut bytes);
    }
    if rng.one_in(12) && bytes.len() >= 4 {
        let at = 4 * rng.below(bytes.len() / 4);
        bytes[at..at + 4].copy_from_slice(&(odd(rng) as u32).to_le_bytes());
    }
    bytes
}
