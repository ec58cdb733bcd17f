//! Steps: mostly ones that can run in the fleet at hand, some that cannot.

use crate::fleet::Fleet;
use crate::rng::Rng;
use crate::sheet::Sheet;
use crate::state::State;
use crate::step::step_on;
use crate::trail::ample;

/// Numbers that are wrong as a word or a node in one way or another, cut to any width.
const ODD: [u64; 20] = [
    0,
    7,
    8,
    9,
    62,
    63,
    64,
    65,
    255,
    256,
    257,
    258,
    264,
    0x7fff_ffff,
    0x8000_0000,
    0xffff_ffff,
    0x1_0000_0001,
    0x1_0000_0005,
    1 << 63,
    u64::MAX,
];

pub fn odd(rng: &mut Rng) -> u64 {
    *rng.pick(&ODD)
}

/// Node and leg of a random open place.
pub fn open_place(rng: &mut Rng, state: &State) -> Option<(usize, usize)> {
    let mut all = vec![];
    for x in (0..64).filter(|&x| state.sets[x] != 0) {
        for leg in 0..64 {
            if state.is_open(x, leg) {
                all.push((x, leg));
            }
        }
    }
    if all.is_empty() {
        return None;
    }
    Some(*rng.pick(&all))
}

/// A van, mostly one that still has something open. With one van nothing is drawn.
pub fn any_van(rng: &mut Rng, sheet: &Sheet, fleet: &Fleet) -> usize {
    let open: Vec<usize> = (0..sheet.v()).filter(|&van| fleet.vans[van].sets != [0; 64]).collect();
    match sheet.v() {
        1 => 0,
        v if open.is_empty() || rng.one_in(4) => rng.below(v),
        _ => *rng.pick(&open),
    }
}

/// A number that is no van, but may look like one to those who read only some of the bits.
fn no_van(rng: &mut Rng, v: usize) -> u64 {
    let v = v as u64;
    *rng.pick(&[v, v, v + 1, 8, 255, 256, (1 << 24) - 1, 1 << 16, 1 << 23, 1 << 32, (1 << 56) - 1])
}

fn of_kind(rng: &mut Rng, sheet: &Sheet, state: &State, kind: u64) -> [u64; 3] {
    let node = |rng: &mut Rng| rng.below(sheet.n()) as u64;
    match kind {
        1 | 2 => match open_place(rng, state) {
            Some((x, leg)) => [kind, leg as u64, x as u64],
            None => [kind, node(rng), node(rng)],
        },
        3 | 4 => [kind, unplaced(rng, sheet, state), odd(rng)],
        8 => [kind, inner(rng, sheet), odd(rng)],
        _ => [kind, odd(rng), odd(rng)],
    }
}

/// Mostly an inner node, on a route or not; now and then any.
fn inner(rng: &mut Rng, sheet: &Sheet) -> u64 {
    if sheet.n() == 2 || rng.one_in(10) {
        return rng.below(sheet.n()) as u64;
    }
    1 + rng.below(sheet.n() - 2) as u64
}

/// Mostly an inner node off the route; now and then any.
fn unplaced(rng: &mut Rng, sheet: &Sheet, state: &State) -> u64 {
    let free: Vec<usize> = (1..sheet.n() - 1).filter(|&x| !state.on_route(x)).collect();
    if free.is_empty() || rng.one_in(5) {
        return rng.below(sheet.n()) as u64;
    }
    *rng.pick(&free) as u64
}

/// Any kind, words mostly in range.
fn loose(rng: &mut Rng, sheet: &Sheet) -> [u64; 3] {
    let mut words = [1 + rng.below(8) as u64, rng.below(sheet.n()) as u64, rng.below(sheet.n()) as u64];
    if rng.one_in(2) {
        let at = rng.below(3);
        words[at] = odd(rng);
    }
    words
}

/// The step word: 6, 7 and 8 with any van, the others now and then with one that is none.
fn named(rng: &mut Rng, sheet: &Sheet, van: usize, words: [u64; 3]) -> [u64; 3] {
    let free = words[0] % 256 >= 6;
    let astray = if free { rng.one_in(2) } else { rng.one_in(15) };
    let van = if astray { no_van(rng, sheet.v()) } else { van as u64 };
    [words[0].wrapping_add(van << 8), words[1], words[2]]
}

pub fn pick(rng: &mut Rng, sheet: &Sheet, fleet: &Fleet) -> [u64; 3] {
    let kind = *rng.pick(&[1, 1, 1, 1, 1, 2, 2, 2, 3, 4, 5, 5, 6, 6, 7, 8, 0]);
    let van = any_van(rng, sheet, fleet);
    let words = if kind == 0 { loose(rng, sheet) } else { of_kind(rng, sheet, &fleet.vans[van], kind) };
    named(rng, sheet, van, words)
}

/// One of the given kinds, as likely accepted as can be.
pub fn pick_of(rng: &mut Rng, sheet: &Sheet, fleet: &Fleet, kinds: &[u64]) -> [u64; 3] {
    let van = any_van(rng, sheet, fleet);
    pick_in(rng, sheet, fleet, van, kinds)
}

/// The same in one van.
pub fn pick_in(rng: &mut Rng, sheet: &Sheet, fleet: &Fleet, van: usize, kinds: &[u64]) -> [u64; 3] {
    let kind = *rng.pick(kinds);
    let [kind, first, second] = of_kind(rng, sheet, &fleet.vans[van], kind);
    [256 * van as u64 + kind, first, second]
}

/// Steps for a sheet, chosen along the fleets they lead through. A share of the lists opens
/// levels only, to meet the 65th.
pub fn list(rng: &mut Rng, sheet: &Sheet, count: usize) -> Vec<[u32; 3]> {
    let mut fleet = Fleet::fresh(sheet);
    let mut trail = vec![0; ample(sheet.n(), sheet.v())];
    let only_levels = rng.one_in(12);
    let mut out = vec![];
    for _ in 0..count {
        let mut words = pick(rng, sheet, &fleet);
        if only_levels {
            words = [6, 0, 0];
        }
        let cut = words.map(|w| w as u32);
        let done = step_on(sheet, &fleet, &trail, cut.map(u64::from));
        fleet = done.fleet;
        trail = done.trail;
        out.push(cut);
    }
    out
}
