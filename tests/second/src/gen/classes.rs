//! Classes: bits for the vans and sets for the nodes. The start and the end of a sheet that is to be
//! run admit every van (7). So do most wards, or there would be little to place; others admit some
//! vans, one of them or none.

use super::draft::Draft;
use crate::rng::Rng;

/// Bits and sets that 7 lets pass; in half of the sheets every ward admits every van.
pub fn deal(rng: &mut Rng, draft: &mut Draft) {
    let narrow = rng.one_in(2);
    deal_sets(rng, draft, narrow);
}

/// The same where some wards, as a rule, do not admit some van.
pub fn narrow(rng: &mut Rng, draft: &mut Draft) {
    deal_sets(rng, draft, true);
}

fn deal_sets(rng: &mut Rng, draft: &mut Draft, narrow: bool) {
    deal_bits(rng, draft);
    let (all, end) = (bits(draft), draft.n() - 1);
    // In some sheets a class is left without any ward.
    let idle = if rng.one_in(4) { draft.limits[rng.below(draft.v())][2] } else { 0 };
    for x in 0..=end {
        let some = narrow && x != 0 && x != end;
        let admitted = if some { part(rng, draft) & !idle } else { all };
        draft.nodes[x][3] = set_of(rng, all, admitted);
    }
}

/// One class for all, a class each, or a few that vans share.
fn deal_bits(rng: &mut Rng, draft: &mut Draft) {
    let mut classes: Vec<u32> = (0..8).map(|i| 1 << i).collect();
    rng.shuffle(&mut classes);
    let kinds = *rng.pick(&[1, 2, 3, 8]);
    let mut dealt: Vec<u32> = (0..draft.v()).map(|van| classes[van % kinds]).collect();
    rng.shuffle(&mut dealt);
    for (van, bit) in draft.limits.iter_mut().zip(dealt) {
        van[2] = bit;
    }
}

/// The bits of all vans.
fn bits(draft: &Draft) -> u32 {
    draft.limits.iter().fold(0, |set, van| set | van[2])
}

/// Of the vans' bits those that a ward has.
fn part(rng: &mut Rng, draft: &Draft) -> u32 {
    let (all, some) = (bits(draft), bits(draft) & rng.any() as u32);
    let (first, last) = (draft.limits[0][2], draft.limits[draft.v() - 1][2]);
    *rng.pick(&[all, all, all, some, some, first, last, 0])
}

/// A set with just these of the vans' bits; those that no van has are free. Where none is free a set
/// cannot be without all of the vans' bits, and has one.
fn set_of(rng: &mut Rng, all: u32, admitted: u32) -> u32 {
    let free = 255 & !all;
    let any = rng.any() as u32;
    match admitted | free & *rng.pick(&[0, 255, any]) {
        0 if free == 0 => 1 << rng.below(8),
        0 => free,
        set => set,
    }
}

/// The start, the end or both do not admit one van, any of them; as a rule it is the only one of its
/// class.
pub fn shut_out(rng: &mut Rng, draft: &mut Draft) {
    let (last, end) = (draft.v() - 1, draft.n() - 1);
    let any = rng.below(draft.v());
    let van = *rng.pick(&[0, last, any, any, any]);
    if !rng.one_in(4) {
        set_apart(rng, draft, van);
    }
    let bit = draft.limits[van][2];
    for node in *rng.pick(&[[0, 0], [end, end], [0, end]]) {
        let set = &mut draft.nodes[node][3];
        *set = if *set & !bit == 0 { 255 & !bit } else { *set & !bit };
    }
}

/// A class of its own for a van that shares one. Who admitted the van still does.
fn set_apart(rng: &mut Rng, draft: &mut Draft, van: usize) {
    let bit = draft.limits[van][2];
    let shared = draft.limits.iter().filter(|limits| limits[2] == bit).count() > 1;
    let free: Vec<u32> = (0..8).map(|i| 1 << i).filter(|class| bits(draft) & class == 0).collect();
    if !shared || free.is_empty() {
        return;
    }
    let own = *rng.pick(&free);
    draft.limits[van][2] = own;
    for node in draft.nodes.iter_mut().filter(|node| node[3] & bit != 0) {
        node[3] |= own;
    }
}

/// A van's bit or a node's set against its rule, or just within it.
pub fn wrong_word(rng: &mut Rng, draft: &mut Draft) {
    let (van, node) = (rng.below(draft.v()), rng.below(draft.n()));
    if rng.one_in(2) {
        let bits = [0, 0, 3, 3, 255, 255, 256, 256, 5, 129, 192, 1 << 31, u32::MAX, u32::MAX, 128];
        draft.limits[van][2] = *rng.pick(&bits);
    } else {
        let sets = [0, 0, 256, 256, 257, 512, 1 << 31, u32::MAX, 255];
        draft.nodes[node][3] = *rng.pick(&sets);
    }
}

/// A count of limits that no number of vans makes, or another number than there are; in half of the
/// sheets with next to nothing behind it.
pub fn miscounted(rng: &mut Rng, mut draft: Draft) -> Vec<u8> {
    let count = *rng.pick(&[0, 1, 2, 3, 5, 6, 16, 19, 24, 24, 26, 27, 28]);
    draft.false_counts.push((0, count));
    let mut bytes = draft.bytes();
    if rng.one_in(2) {
        bytes.truncate(4 * (1 + rng.below(3)));
    }
    bytes
}
